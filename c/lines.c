/* include/raugvite_lines.h: cells, as docs/STORAGE.md has them, read back as trees and written as text. */
#include "raugvite_lines.h"

#include <string.h>

const char *raugvite_version(void) { return "0.1.0"; }

const char *raugvite_meaning(size_t number) {
  static const char *const meanings[] = {
      [1] = "the text is too long: a program has at most 32768 bytes, a job 8192",
      [2] = "this byte is none of those that a text may have: printable ASCII, tab, line feed",
      [3] = "the grammar wants something else here, or the text ends too early",
      [4] = "a name of over 16 characters, a numeral of over 7 digits, or a variable's number that is not 1 to 999",
      [5] = "too many: 4096 tokens, 64 open brackets, 64 definitions, 16 parameters or 1024 symbols are the most",
      [6] = "this name is defined or bound twice",
      [7] = "no function of this name, or a wrong number of arguments",
      [8] = "an atom is due here: a symbol or a variable a.NAME",
      [9] = "this variable is not in reach",
      [10] = "the job's inputs are unlike main's parameters in number or kind, or one has a variable in a run",
      [11] = "this side of a non-equality is no atom, or its variable stands in neither input nor output",
      [12] = "the number is too large: steps 1000, walk 1000000, table 256 are the most",
      [13] = "this name is in reach already: a cons? binds new names alone",
      [20] = "the storage that was lent is too short",
      [21] = "a configuration has over 4096 nodes",
      [22] = "the listing has more lines than the job's table, or over 16384 nodes in them",
      [23] = "the walk makes more transitions than the job's walk allows",
  };
  return number < sizeof meanings / sizeof *meanings ? meanings[number] : NULL;
}

struct raugvite_place raugvite_place_of(const uint8_t *text, size_t length, size_t offset) {
  struct raugvite_place place = {1, 1, 0};
  size_t end = offset < length ? offset : length;
  for (size_t i = 0; i < end; i++) {
    if (text[i] == '\n') {
      place.line++;
      place.start = i + 1;
    }
  }
  place.column = end - place.start + 1;
  return place;
}

/* Trees. */

static const struct raugvite_tree NO_TREE = {NULL, 0};

static enum raugvite_kind kind_of_cell(uint16_t cell) {
  switch (cell % 4) {
  case 1: return RAUGVITE_SYMBOL;
  case 2: return RAUGVITE_ANY;
  case 3: return RAUGVITE_ATOM;
  default: return cell == 4 ? RAUGVITE_PAIR : RAUGVITE_NONE;
  }
}

/* How many of the cells the first tree has; 0 where they do not begin with one. */
static size_t first_length(const uint16_t *cells, size_t length) {
  size_t due = 1, i = 0;
  while (due > 0) {
    enum raugvite_kind kind = i < length ? kind_of_cell(cells[i]) : RAUGVITE_NONE;
    if (kind == RAUGVITE_NONE) return 0;
    due = kind == RAUGVITE_PAIR ? due + 1 : due - 1;
    i++;
  }
  return i;
}

/* Whether the cells are exactly one tree. */
static int is_tree(const uint16_t *cells, size_t length) { return length > 0 && first_length(cells, length) == length; }

static struct raugvite_tree behind(struct raugvite_tree tree, size_t n) { return (struct raugvite_tree){tree.cells + n, tree.length - n}; }

enum raugvite_kind raugvite_kind_of(struct raugvite_tree tree) { return tree.length == 0 ? RAUGVITE_NONE : kind_of_cell(tree.cells[0]); }

size_t raugvite_number_of(struct raugvite_tree tree) {
  enum raugvite_kind kind = raugvite_kind_of(tree);
  return kind == RAUGVITE_NONE || kind == RAUGVITE_PAIR ? 0 : tree.cells[0] / 4;
}

int raugvite_next_tree(struct raugvite_tree *several, struct raugvite_tree *tree) {
  size_t n = first_length(several->cells, several->length);
  *tree = n == 0 ? NO_TREE : (struct raugvite_tree){several->cells, n};
  if (n == 0) return 0;
  *several = behind(*several, n);
  return 1;
}

struct raugvite_tree raugvite_head(struct raugvite_tree pair) {
  if (raugvite_kind_of(pair) != RAUGVITE_PAIR) return NO_TREE;
  struct raugvite_tree parts = behind(pair, 1), head;
  raugvite_next_tree(&parts, &head);
  return head;
}

struct raugvite_tree raugvite_tail(struct raugvite_tree pair) {
  if (raugvite_kind_of(pair) != RAUGVITE_PAIR) return NO_TREE;
  struct raugvite_tree parts = behind(pair, 1), tail;
  if (raugvite_next_tree(&parts, &tail)) raugvite_next_tree(&parts, &tail);
  return tail;
}

/* Lines. */

/* Counts trees one behind the other: 1, or 0 where the cells are not whole ones. */
static int count_trees(struct raugvite_tree several, size_t *count) {
  struct raugvite_tree tree;
  for (*count = 0; several.length > 0; ++*count) {
    if (!raugvite_next_tree(&several, &tree)) return 0;
  }
  return 1;
}

struct raugvite_lines raugvite_lines_of(const uint16_t *answer, size_t answer_length, size_t lines) {
  return (struct raugvite_lines){answer, answer_length, lines, 0};
}

/* Whether each side is a symbol or a variable ?a. */
static int are_atoms(const uint16_t *sides, size_t count) {
  for (size_t i = 0; i < count; i++) {
    if (sides[i] % 2 == 0) return 0;
  }
  return 1;
}

int raugvite_next_line(struct raugvite_lines *lines, struct raugvite_line *line) {
  enum { HEADING = 4 };
  if (lines->left == 0) return 0;
  if (lines->length < HEADING) return -1;
  const uint16_t *cells = lines->cells;
  size_t i = cells[1], o = cells[2], q = cells[3], all = HEADING + i + o + 2 * q;
  if (lines->length < all) return -1;
  *line = (struct raugvite_line){.number = lines->number + 1,
                                 .steps = cells[0],
                                 .inputs = {cells + HEADING, i},
                                 .output = {cells + HEADING + i, o},
                                 .unequal_count = q,
                                 .unequal = cells + HEADING + i + o};
  if (!count_trees(line->inputs, &line->input_count) || !is_tree(line->output.cells, o) || !are_atoms(line->unequal, 2 * q)) return -1;
  *lines = (struct raugvite_lines){cells + all, lines->length - all, lines->left - 1, line->number};
  return 1;
}

struct raugvite_tree raugvite_input(const struct raugvite_line *line, size_t i) {
  struct raugvite_tree rest = line->inputs, input;
  if (line->input_count <= i) return NO_TREE;
  do raugvite_next_tree(&rest, &input);
  while (i-- > 0);
  return input;
}

static struct raugvite_tree side(const struct raugvite_line *line, size_t i, size_t which) {
  return i < line->unequal_count ? (struct raugvite_tree){line->unequal + 2 * i + which, 1} : NO_TREE;
}

struct raugvite_tree raugvite_left(const struct raugvite_line *line, size_t i) { return side(line, i, 0); }

struct raugvite_tree raugvite_right(const struct raugvite_line *line, size_t i) { return side(line, i, 1); }

int raugvite_known_of(const uint16_t *sample, size_t sample_length, size_t inputs, size_t output, struct raugvite_known *known) {
  *known = (struct raugvite_known){0, NO_TREE, NO_TREE};
  if (output == 0) return 0;
  if (sample_length < inputs || sample_length - inputs < output || !is_tree(sample + inputs, output)) return -1;
  struct raugvite_known found = {0, {sample, inputs}, {sample + inputs, output}};
  if (!count_trees(found.inputs, &found.input_count)) return -1;
  *known = found;
  return 1;
}

struct raugvite_tree raugvite_value(const uint16_t *answer, size_t answer_length, size_t length) {
  return length <= answer_length && is_tree(answer, length) ? (struct raugvite_tree){answer, length} : NO_TREE;
}

/* What the job's variables are. */

/* A word of a text. */
struct word {
  const uint8_t *bytes;
  size_t length;
};

static int parts_words(uint8_t byte) { return byte == '\0' || strchr(" \t\n()[]", byte) != NULL; }

/* The next word from `at` on, brackets passed over; of length 0 at the text's end. */
static struct word next_word(const uint8_t *text, size_t length, size_t *at) {
  size_t start = *at;
  while (start < length && parts_words(text[start])) start++;
  size_t end = start;
  while (end < length && !parts_words(text[end])) end++;
  *at = end;
  return (struct word){text + start, end - start};
}

static int is_word(struct word word, const char *text) { return word.length == strlen(text) && memcmp(word.bytes, text, word.length) == 0; }

/* The cell of a job's variable; 0 where the word is none. */
static uint16_t variable_of(struct word word) {
  if (word.length < 3 || word.length > 5 || word.bytes[0] != '?') return 0;
  if (word.bytes[1] != 'e' && word.bytes[1] != 'a') return 0;
  unsigned number = 0;
  for (size_t i = 2; i < word.length; i++) {
    if (word.bytes[i] < '0' || word.bytes[i] > '9') return 0;
    number = 10 * number + (unsigned)(word.bytes[i] - '0');
  }
  return number == 0 ? 0 : (uint16_t)(4 * number + (word.bytes[1] == 'e' ? 2 : 3));
}

struct raugvite_bindings raugvite_bindings_of(const uint8_t *job, size_t job_length, const struct raugvite_line *line) {
  return (struct raugvite_bindings){.job = job, .length = job_length, .rest = line->inputs, .output = line->output};
}

/* Whether the variable was given before; it counts as given from now on. */
static int seen_before(struct raugvite_bindings *bindings, uint16_t variable) {
  size_t bit = 2u * (variable / 4u) + variable % 2u;
  uint8_t mask = (uint8_t)(1u << bit % 8), *byte = &bindings->seen[bit / 8];
  int seen = (*byte & mask) != 0;
  *byte |= mask;
  return seen;
}

/* Passes the part of the line where the job has a variable: 1 where it is to be given, 0 where it was, -1 where there is no such part. */
static int pass_variable(struct raugvite_bindings *bindings, uint16_t variable, struct raugvite_binding *binding) {
  struct raugvite_tree is;
  if (!raugvite_next_tree(&bindings->rest, &is)) return -1;
  if (seen_before(bindings, variable)) return 0;
  *binding = (struct raugvite_binding){variable, is, is.length != 1 || is.cells[0] != variable};
  return 1;
}

/* Passes a pair or a symbol, which are in the line what they are in the job: 0, or -1 where the line has something else. */
static int pass_node(struct raugvite_bindings *bindings, enum raugvite_kind kind) {
  if (raugvite_kind_of(bindings->rest) != kind) return -1;
  bindings->rest = behind(bindings->rest, 1);
  return 0;
}

/* Goes on to the output: 0, or -1 where the line has more inputs than the job. */
static int pass_out(struct raugvite_bindings *bindings) {
  if (bindings->rest.length > 0) return -1;
  bindings->rest = bindings->output;
  return 0;
}

/* The job's trees stand in its text as their nodes do in cells, each before its parts, so that the words are passed along with the cells. */
int raugvite_next_binding(struct raugvite_bindings *bindings, struct raugvite_binding *binding) {
  for (;;) {
    struct word word = next_word(bindings->job, bindings->length, &bindings->at);
    int passed = 0;
    if (word.length == 0 || is_word(word, "neq")) {
      bindings->at = bindings->length;
      return 0;
    }
    if (is_word(word, "in")) bindings->within = 1;
    else if (!bindings->within) continue;
    else if (is_word(word, "out")) passed = pass_out(bindings);
    else if (is_word(word, "cons")) passed = pass_node(bindings, RAUGVITE_PAIR);
    else if (word.bytes[0] == '\'') passed = pass_node(bindings, RAUGVITE_SYMBOL);
    else passed = variable_of(word) == 0 ? -1 : pass_variable(bindings, variable_of(word), binding);
    if (passed != 0) return passed;
  }
}

/* Names. */

static int is_name(uint8_t byte) {
  return (byte >= '0' && byte <= '9') || (byte >= 'A' && byte <= 'Z') || (byte >= 'a' && byte <= 'z');
}

static void add_name(struct raugvite_symbols *symbols, const uint8_t *name, size_t length) {
  for (size_t i = 0; i < symbols->count; i++) {
    if (symbols->length[i] == length && memcmp(symbols->name[i], name, length) == 0) return;
  }
  if (symbols->count == RAUGVITE_SYMBOLS) return;
  symbols->name[symbols->count] = name;
  symbols->length[symbols->count] = (uint8_t)length;
  symbols->count++;
}

/* In an accepted text a quote stands before a symbol and nowhere else. */
static void add_names(struct raugvite_symbols *symbols, const uint8_t *text, size_t length) {
  for (size_t i = 0; i < length; i++) {
    if (text[i] != '\'') continue;
    size_t n = 0;
    while (n < RAUGVITE_NAME && i + 1 + n < length && is_name(text[i + 1 + n])) n++;
    add_name(symbols, text + i + 1, n);
  }
}

/* The number of a name that is Q and a number from 1 up without leading noughts, as far as new atoms can have it; else 0. */
static size_t new_number(const uint8_t *name, size_t length) {
  enum { MOST = RAUGVITE_NEW_ATOMS + RAUGVITE_SYMBOLS };
  size_t number = 0;
  if (length < 2 || name[0] != 'Q' || name[1] == '0') return 0;
  for (size_t i = 1; i < length; i++) {
    if (name[i] < '0' || name[i] > '9') return 0;
    number = 10 * number + (size_t)(name[i] - '0');
    if (number > MOST) return 0;
  }
  return number;
}

/* The numbers that make no symbol's name: at most as many are left out as there are symbols. */
static void number_new_atoms(struct raugvite_symbols *symbols) {
  uint8_t taken[RAUGVITE_NEW_ATOMS + RAUGVITE_SYMBOLS + 1] = {0};
  for (size_t i = 0; i < symbols->count; i++) taken[new_number(symbols->name[i], symbols->length[i])] = 1;
  for (size_t number = 1, k = 0; k < RAUGVITE_NEW_ATOMS; number++) {
    if (!taken[number]) symbols->new_atom[k++] = (uint16_t)number;
  }
}

void raugvite_symbols_of(struct raugvite_symbols *symbols, const uint8_t *program, size_t program_length, const uint8_t *job, size_t job_length) {
  symbols->count = 0;
  add_names(symbols, program, program_length);
  add_names(symbols, job, job_length);
  number_new_atoms(symbols);
}

/* Trees as text. */

/* No line has a tree of more cells, since its heading says how many in 16 bits. */
enum { CELLS = 65535 };

/* The text so far, and for each pair that is being written whether its tail is: a bit each, so that no tree is too deep for the stack. */
struct writer {
  char *out;
  size_t room, length;
  enum raugvite_notation notation;
  const struct raugvite_symbols *symbols;
  size_t depth;
  uint8_t in_tail[CELLS / 2 / 8 + 1];
};

static void put(struct writer *w, char c) {
  if (w->length + 1 < w->room) w->out[w->length] = c;
  w->length++;
}

static void put_text(struct writer *w, const char *text) {
  while (*text) put(w, *text++);
}

static void put_number(struct writer *w, unsigned number) {
  if (number >= 10) put_number(w, number / 10);
  put(w, (char)('0' + number % 10));
}

static int in_tail(const struct writer *w) { return w->in_tail[(w->depth - 1) / 8] >> (w->depth - 1) % 8 & 1; }

/* Whether what comes next is the head of a pair. */
static int is_head(const struct writer *w) { return w->depth > 0 && !in_tail(w); }

static void open_pair(struct writer *w) {
  if (w->notation == RAUGVITE_CONS) put_text(w, "(cons ");
  else if (is_head(w)) put(w, '(');
  w->in_tail[w->depth / 8] &= (uint8_t)~(1u << w->depth % 8);
  w->depth++;
}

/* Behind a tree: on to the tail where it was a head, and out of each pair whose tail it was. */
static void close_pairs(struct writer *w) {
  while (w->depth > 0) {
    if (is_head(w)) {
      put(w, w->notation == RAUGVITE_CONS ? ' ' : ':');
      w->in_tail[(w->depth - 1) / 8] |= (uint8_t)(1u << (w->depth - 1) % 8);
      return;
    }
    w->depth--;
    if (w->notation == RAUGVITE_CONS || is_head(w)) put(w, ')');
  }
}

static void put_new_atom(struct writer *w, unsigned number) {
  put(w, 'Q');
  put_number(w, number);
}

static void put_leaf(struct writer *w, uint16_t cell) {
  enum raugvite_kind kind = kind_of_cell(cell);
  unsigned number = cell / 4u;
  if (kind != RAUGVITE_SYMBOL) {
    put_text(w, kind == RAUGVITE_ANY ? "?e" : "?a");
    put_number(w, number);
    return;
  }
  put(w, '\'');
  if (number >= RAUGVITE_SYMBOLS) {
    if (number - RAUGVITE_SYMBOLS < RAUGVITE_NEW_ATOMS) put_new_atom(w, w->symbols->new_atom[number - RAUGVITE_SYMBOLS]);
    return;
  }
  if (number >= w->symbols->count) return;
  for (size_t i = 0; i < w->symbols->length[number]; i++) put(w, (char)w->symbols->name[number][i]);
}

size_t raugvite_write_tree(char *out, size_t room, struct raugvite_tree tree, enum raugvite_notation notation,
                           const struct raugvite_symbols *symbols) {
  struct writer w = {.out = out, .room = room, .notation = notation, .symbols = symbols};
  size_t cells = tree.length <= CELLS && is_tree(tree.cells, tree.length) ? tree.length : 0;
  for (size_t i = 0; i < cells; i++) {
    if (tree.cells[i] == 4) {
      open_pair(&w);
    } else {
      put_leaf(&w, tree.cells[i]);
      close_pairs(&w);
    }
  }
  if (room > 0) out[w.length < room ? w.length : room - 1] = '\0';
  return w.length;
}
