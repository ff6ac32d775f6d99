/* The lines of a listing for reading: pairs as HEAD:TAIL, rows of a given width, and a mark behind each variable that is left open.
 *
 * Every variable in a line is open: nothing binds it further. One that stands once, and in no non-equality, is free: the rule asked nothing of what
 * stands there, or only whether it is an atom. That is where a rule has not looked, so it gets a mark of its own and a row that names it. */
#include "front.h"

#include <stdio.h>
#include <string.h>

enum { LINES = 256, LABEL = 9, APART = 3, FREE_MARK = '!', OPEN_MARK = '*' };

/* How often each variable stands in the line's inputs and output, and whether a non-equality has it; by its cell. */
static uint32_t standing[65536];
static uint8_t asked[65536];

/* What is being shown, and how far the row is filled. */
struct page {
  struct text out, item;
  size_t columns, row; /* `row` is where the present row starts in `out` */
  bool empty;          /* nothing stands behind the label yet */
  struct raugvite_symbols symbols;
};

static bool is_variable(uint16_t cell) { return cell % 4 >= 2; }

static bool is_free(uint16_t cell) { return is_variable(cell) && standing[cell] == 1 && !asked[cell]; }

static void count_variables(const struct raugvite_line *line) {
  memset(standing, 0, sizeof standing);
  memset(asked, 0, sizeof asked);
  for (size_t i = 0; i < line->inputs.length; i++) standing[line->inputs.cells[i]]++;
  for (size_t i = 0; i < line->output.length; i++) standing[line->output.cells[i]]++;
  for (size_t i = 0; i < 2 * line->unequal_count; i++) asked[line->unequal[i]] = 1;
}

/* Rows. */

static size_t column(const struct page *page) { return page->out.length - page->row; }

static void next_row(struct page *page, size_t indent) {
  text_add(&page->out, "\n", 1);
  page->row = page->out.length;
  text_put(&page->out, "%*s", (int)indent, "");
}

static void label(struct page *page, const char *word) {
  next_row(page, 0);
  text_put(&page->out, "  %-*s", LABEL - 2, word);
  page->empty = true;
}

/* How much of an item stands in one piece: up to the next colon, and no more than a row takes. */
static size_t piece_length(const char *item, size_t left, size_t room) {
  const char *colon = memchr(item, ':', left);
  size_t n = colon ? (size_t)(colon - item) + 1 : left;
  return n < room ? n : room;
}

/* An item on rows of its own. */
static void break_item(struct page *page, const char *item, size_t length) {
  size_t room = page->columns - LABEL - 2;
  while (length > 0) {
    size_t n = piece_length(item, length, room);
    if (column(page) + n > page->columns) next_row(page, LABEL + 2);
    text_add(&page->out, item, n);
    item += n;
    length -= n;
  }
}

/* Puts the item behind the others of its row, or on the next row; one that no row takes is broken behind its colons. */
static void put_item(struct page *page) {
  if (page->item.failed) page->out.failed = true;
  if (page->out.failed) return;
  size_t length = page->item.length;
  if (!page->empty && column(page) + APART + length <= page->columns) text_put(&page->out, "%*s", APART, "");
  else if (!page->empty) next_row(page, LABEL);
  break_item(page, page->item.bytes, length);
  page->empty = false;
  page->item.length = 0;
}

/* Items. */

static void add_mark(struct page *page, uint16_t cell) {
  char mark = is_free(cell) ? FREE_MARK : OPEN_MARK;
  text_add(&page->item, &mark, 1);
}

/* A tree's text; where marks are wanted, one behind each variable. The text is written leaf by leaf as the cells are, so that the n-th
 * question mark in it is the n-th variable of the tree: symbols have none. */
static void add_tree(struct page *page, struct raugvite_tree tree, bool marked) {
  struct text text = {0};
  size_t length = raugvite_write_tree(NULL, 0, tree, RAUGVITE_COLON, &page->symbols), cell = 0;
  text_put(&text, "%*s", (int)length, "");
  if (!text.failed) raugvite_write_tree(text.bytes, length + 1, tree, RAUGVITE_COLON, &page->symbols);
  for (size_t at = 0; !text.failed && at < length;) {
    size_t n = text.bytes[at] == '?' ? 2 + strspn(text.bytes + at + 2, "0123456789") : 1;
    text_add(&page->item, text.bytes + at, n);
    if (text.bytes[at] == '?') {
      while (!is_variable(tree.cells[cell])) cell++;
      if (marked) add_mark(page, tree.cells[cell]);
      cell++;
    }
    at += n;
  }
  page->item.failed = page->item.failed || text.failed;
  free_text(&text);
}

static void add_cell(struct page *page, uint16_t cell) { add_tree(page, (struct raugvite_tree){&cell, 1}, false); }

/* The rows of a line. */

static void show_trees(struct page *page, const char *word, struct raugvite_tree several) {
  struct raugvite_tree tree;
  label(page, word);
  while (raugvite_next_tree(&several, &tree)) {
    add_tree(page, tree, true);
    put_item(page);
  }
}

/* Each variable of the job: VAR=EXPR, or with its mark alone where it is not bound. */
static bool show_bindings(struct page *page, const struct source *job, const struct raugvite_line *line) {
  struct raugvite_bindings bindings = raugvite_bindings_of(job->bytes, job->length, line);
  struct raugvite_binding binding;
  int more = raugvite_next_binding(&bindings, &binding);
  if (more == 1) label(page, "with");
  for (; more == 1; more = raugvite_next_binding(&bindings, &binding)) {
    if (binding.bound) {
      add_cell(page, binding.variable);
      text_add(&page->item, "=", 1);
    }
    add_tree(page, binding.is, true);
    put_item(page);
  }
  return more == 0;
}

static void show_unequal(struct page *page, const struct raugvite_line *line) {
  if (line->unequal_count > 0) label(page, "where");
  for (size_t i = 0; i < line->unequal_count; i++) {
    add_tree(page, raugvite_left(line, i), false);
    text_put(&page->item, " is not ");
    add_tree(page, raugvite_right(line, i), false);
    put_item(page);
  }
}

/* The free variables of one kind. */
static void show_free(struct page *page, const struct raugvite_line *line, enum raugvite_kind kind) {
  bool labelled = false;
  for (size_t i = 0; i < line->inputs.length; i++) {
    struct raugvite_tree leaf = {line->inputs.cells + i, 1};
    if (raugvite_kind_of(leaf) != kind || !is_free(*leaf.cells)) continue;
    if (!labelled) {
      label(page, "FREE");
      text_put(&page->item, "any %s at", kind == RAUGVITE_ANY ? "value" : "atom");
      put_item(page);
    }
    labelled = true;
    add_tree(page, leaf, false);
    put_item(page);
  }
}

static bool show_line(struct page *page, const struct source *job, const struct raugvite_line *line) {
  size_t out = find_word(job, "out"), neq = find_word(job, "neq");
  count_variables(line);
  next_row(page, 0);
  next_row(page, 0);
  text_put(&page->out, "line %zu, %zu step%s", line->number, line->steps, line->steps == 1 ? "" : "s");
  if (line->input_count > 0) show_trees(page, "in", line->inputs);
  if (out < neq && memchr(job->bytes + out, '?', neq - out)) show_trees(page, "out", line->output);
  bool read = show_bindings(page, job, line);
  show_unequal(page, line);
  show_free(page, line, RAUGVITE_ATOM);
  show_free(page, line, RAUGVITE_ANY);
  return read;
}

/* The whole. */

static void show_heading(struct page *page, const struct answer *answer) {
  size_t lines = answer->said[RAUGVITE_LINES], transitions = answer->said[RAUGVITE_TRANSITIONS];
  if (answer->number == 0) text_put(&page->out, "%s: ", answer->said[RAUGVITE_CUT] ? "cut, NOT COMPLETE" : "whole");
  else text_put(&page->out, "stop%zu, NOT COMPLETE: ", answer->number);
  text_put(&page->out, "%zu line%s, %zu transition%s", lines, lines == 1 ? "" : "s", transitions, transitions == 1 ? "" : "s");
  if (lines == 0) return;
  text_put(&page->out, "\n\n%c  free: stands once in its line, and nothing is asked of it", FREE_MARK);
  text_put(&page->out, "\n%c  open too, but stands again or has to differ from something", OPEN_MARK);
}

/* Stable: lines with as many steps keep their order. */
static void sort_by_steps(struct raugvite_line *lines, size_t count) {
  for (size_t i = 1; i < count; i++) {
    struct raugvite_line line = lines[i];
    size_t at = i;
    for (; at > 0 && lines[at - 1].steps > line.steps; at--) lines[at] = lines[at - 1];
    lines[at] = line;
  }
}

enum status show_lines(const struct answer *answer, size_t columns, bool unsorted) {
  static struct raugvite_line lines[LINES];
  static struct page page;
  struct raugvite_lines left = raugvite_lines_of(answer->cells, answer->cells_length, answer->said[RAUGVITE_LINES]);
  size_t count = 0;
  page.columns = columns;
  raugvite_symbols_of(&page.symbols, answer->program.bytes, answer->program.length, answer->job.bytes, answer->job.length);
  while (count < LINES && raugvite_next_line(&left, &lines[count]) == 1) count++;
  bool read = count == answer->said[RAUGVITE_LINES];
  if (!unsorted) sort_by_steps(lines, count);
  show_heading(&page, answer);
  for (size_t i = 0; i < count; i++) read = show_line(&page, &answer->job, &lines[i]) && read;
  text_add(&page.out, "\n", 1);
  free_text(&page.item);
  if (!read) fputs("ura: the lines that stand in storage cannot be read: what is shown is NOT COMPLETE\n", stderr);
  return text_write(&page.out) == DONE && read ? DONE : FAILED;
}
