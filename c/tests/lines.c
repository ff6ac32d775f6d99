/* Tries include/raugvite_lines.h on cells and texts that no listing leaves, and on the corners of each function. Each array is allocated with
 * the length that is handed in, so that the address sanitizer sees a read outside it. Ends 'N passed, M failed'. */
#include "raugvite_lines.h"

#include <stdio.h>
#include <stdlib.h>
#include <string.h>

static size_t passed, failed;

static void expect(const char *what, int holds) {
  if (holds) passed++;
  else failed++;
  if (!holds) printf("FAILED %s\n", what);
}

static uint32_t state = 1;

static uint32_t random_below(uint32_t bound) {
  state = state * 1664525u + 1013904223u;
  return (state >> 8) % bound;
}

static struct raugvite_symbols symbols;

static void texts_of(const char *program, const char *job) {
  raugvite_symbols_of(&symbols, (const uint8_t *)program, strlen(program), (const uint8_t *)job, strlen(job));
}

/* The text in a buffer of exactly `room` bytes agrees with the whole as far as it goes, and so does its length. */
static int writes_alike(struct raugvite_tree tree, enum raugvite_notation notation, size_t room) {
  size_t length = raugvite_write_tree(NULL, 0, tree, notation, &symbols);
  char *whole = malloc(length + 1), *part = malloc(room + 1);
  if (!whole || !part) exit(2);
  part[room] = '#';
  int alike = raugvite_write_tree(whole, length + 1, tree, notation, &symbols) == length && strlen(whole) == length;
  alike = alike && raugvite_write_tree(part, room, tree, notation, &symbols) == length && part[room] == '#';
  if (room > 0) alike = alike && strlen(part) == (length < room ? length : room - 1) && strncmp(part, whole, strlen(part)) == 0;
  free(whole);
  free(part);
  return alike;
}

static int is_text(const uint16_t *cells, size_t length, enum raugvite_notation notation, const char *text) {
  char out[200];
  return raugvite_write_tree(out, sizeof out, (struct raugvite_tree){cells, length}, notation, &symbols) == strlen(text) && strcmp(out, text) == 0;
}

static void try_writing(void) {
  const uint16_t list[] = {4, 1, 4, 5, 67}, head[] = {4, 4, 4, 1, 5, 6, 4, 1, 53162}, lost[] = {41};
  texts_of("(define f [] (cons 'A 'B))", "'A 'Sixteenletters16");
  expect("a list", is_text(list, 5, RAUGVITE_COLON, "'A:'B:?a16") && is_text(list, 5, RAUGVITE_CONS, "(cons 'A (cons 'B ?a16))"));
  expect("a pair in the head", is_text(head, 9, RAUGVITE_COLON, "(('A:'B):?e1):'A:?e13290"));
  expect("the same with cons", is_text(head, 9, RAUGVITE_CONS, "(cons (cons (cons 'A 'B) ?e1) (cons 'A ?e13290))"));
  expect("a symbol without a name", is_text(lost, 1, RAUGVITE_CONS, "'"));
  expect("too few cells", is_text(list, 4, RAUGVITE_CONS, "") && is_text(list, 0, RAUGVITE_COLON, ""));
  expect("symbols once each", symbols.count == 3 && symbols.length[2] == 16);
  for (size_t room = 0; room < 60; room++) {
    struct raugvite_tree tree = {head, 9};
    expect("room", writes_alike(tree, RAUGVITE_CONS, room) && writes_alike(tree, RAUGVITE_COLON, room));
  }
}

/* Trees as deep as cells go: each pair in the head, or each in the tail. */
static void try_depth(size_t length, int heads, int written) {
  uint16_t *cells = malloc(length * sizeof *cells);
  if (!cells) exit(2);
  for (size_t i = 0; i < length; i++) cells[i] = heads ? (i < length / 2 ? 4 : 1) : (i % 2 == 0 && i + 1 < length ? 4 : 1);
  struct raugvite_tree tree = {cells, length};
  size_t pairs = length / 2, leaves = pairs + 1;
  size_t text = raugvite_write_tree(NULL, 0, tree, RAUGVITE_CONS, &symbols), colon = raugvite_write_tree(NULL, 0, tree, RAUGVITE_COLON, &symbols);
  expect("a deep tree", text == (written ? 8 * pairs + 2 * leaves : 0));
  expect("a deep tree with colons", colon == (written ? pairs + 2 * leaves + (heads ? 2 * (pairs - 1) : 0) : 0));
  expect("its parts", raugvite_head(tree).length == (heads ? length - 2 : 1) && raugvite_tail(tree).length == (heads ? 1 : length - 2));
  free(cells);
}

static void visit(const struct raugvite_line *line, const uint8_t *job, size_t job_length) {
  struct raugvite_bindings bindings = raugvite_bindings_of(job, job_length, line);
  struct raugvite_binding binding;
  size_t given = 0;
  while (raugvite_next_binding(&bindings, &binding) == 1) given += raugvite_kind_of(binding.is) != RAUGVITE_NONE;
  expect("no more bindings than variables", given <= 1998);
  for (size_t i = 0; i < line->input_count; i++) {
    struct raugvite_tree input = raugvite_input(line, i);
    expect("an input", input.length > 0 && writes_alike(input, RAUGVITE_CONS, random_below(9)));
    expect("its parts", raugvite_kind_of(input) != RAUGVITE_PAIR || raugvite_head(input).length + raugvite_tail(input).length + 1 == input.length);
  }
  expect("no input behind the last", raugvite_input(line, line->input_count).length == 0);
  expect("no side behind the last", raugvite_left(line, line->unequal_count).length + raugvite_right(line, line->unequal_count).length == 0);
  for (size_t i = 0; i < line->unequal_count; i++) {
    expect("sides", raugvite_kind_of(raugvite_left(line, i)) != RAUGVITE_ANY && raugvite_kind_of(raugvite_right(line, i)) != RAUGVITE_PAIR);
  }
}

/* A random tree of at most `room` cells, room odd. */
static size_t random_tree(uint16_t *cells, size_t room) {
  static const uint16_t leaves[] = {1, 5, 6, 7, 10, 39, 3998, 3999, 65535};
  size_t due = 1, n = 0;
  for (; due > 0; n++) {
    int pair = n + due + 2 <= room && random_below(2) == 0;
    cells[n] = pair ? 4 : leaves[random_below(9)];
    due = pair ? due + 1 : due - 1;
  }
  return n;
}

/* A random line behind the others. */
static size_t random_line(uint16_t *cells) {
  size_t n = 4, inputs = random_below(3);
  for (size_t i = 0; i < inputs; i++) n += random_tree(cells + n, 9);
  cells[0] = (uint16_t)random_below(1001);
  cells[1] = (uint16_t)(n - 4);
  cells[2] = (uint16_t)random_tree(cells + n, 9);
  n += cells[2];
  cells[3] = (uint16_t)random_below(3);
  for (size_t i = 0; i < 2u * cells[3]; i++) cells[n++] = (uint16_t)(2 * random_below(40) + 1);
  return n;
}

/* Lines with a cell changed or the end cut off, or cells that were never lines: how many of them there are. */
static size_t random_cells(uint16_t *cells, size_t room) {
  size_t n = 0, lines = random_below(4);
  for (size_t i = 0; i < lines; i++) n += random_line(cells + n);
  if (random_below(8) == 0) {
    n = random_below((uint32_t)room);
    for (size_t i = 0; i < n; i++) cells[i] = (uint16_t)random_below(random_below(2) ? 9 : 65536);
  }
  if (n > 0 && random_below(3) == 0) cells[random_below((uint32_t)n)] = (uint16_t)random_below(random_below(2) ? 9 : 65536);
  return n > 0 && random_below(4) == 0 ? random_below((uint32_t)n) : n;
}

/* A copy of exactly so many bytes. */
static void *copy(const void *bytes, size_t length) {
  void *made = malloc(length > 0 ? length : 1);
  if (!made) exit(2);
  memcpy(made, bytes, length);
  return made;
}

static size_t random_job(char *text) {
  static const char *const words[] = {"(", ")", "in ", "out ", "neq ", "cons ", "'A ", "?e1 ", "?a999 ", "?e0 ", "?a1000 ", "?", " ", "x"};
  strcpy(text, random_below(2) ? "(job (in " : "");
  for (size_t i = random_below(30); i > 0; i--) strcat(text, words[random_below(14)]);
  return strlen(text);
}

/* Any cells and any job: how many lines were read. */
static size_t try_random(void) {
  uint16_t space[128];
  char text[400];
  size_t length = random_cells(space, 128), job_length = random_job(text), read = 0;
  uint16_t *cells = copy(space, length * sizeof *cells);
  uint8_t *job = copy(text, job_length);
  struct raugvite_lines lines = raugvite_lines_of(cells, length, random_below(4) == 0 ? SIZE_MAX : random_below(5));
  struct raugvite_line line;
  for (; raugvite_next_line(&lines, &line) == 1; read++) visit(&line, job, job_length);
  expect("a value", raugvite_value(cells, length, random_below(130)).length <= length);
  free(cells);
  free(job);
  return read;
}

static void try_meanings(void) {
  for (size_t number = 0; number < 40; number++) {
    int has = (number >= 1 && number <= 13) || (number >= 20 && number <= 23);
    expect("a meaning", (raugvite_meaning(number) != NULL) == has);
  }
  expect("no meaning", raugvite_meaning(SIZE_MAX) == NULL);
}

static int is_place(size_t offset, size_t line, size_t column, size_t start) {
  struct raugvite_place place = raugvite_place_of((const uint8_t *)"ab\n\ncd\n", 7, offset);
  return place.line == line && place.column == column && place.start == start;
}

static void try_places(void) {
  expect("the first byte", is_place(0, 1, 1, 0));
  expect("a line feed is the last of its line", is_place(2, 1, 3, 0));
  expect("an empty line", is_place(3, 2, 1, 3));
  expect("a line behind it", is_place(5, 3, 2, 4));
  expect("the end, and behind it", is_place(7, 4, 1, 7) && is_place(SIZE_MAX, 4, 1, 7));
}

static void try_bindings(void) {
  const uint16_t cells[] = {9, 6, 1, 1, 4, 1, 4, 7, 10, 1, 5, 7, 1};
  const char *job = "(job (in (cons 'A ?e1) ?a9) (out 'B) (neq) (steps 9) (walk 9) (table 9))", *other = "(job (in ?e1) (out 'B) (neq))";
  struct raugvite_lines lines = raugvite_lines_of(cells, 13, 1);
  struct raugvite_line line;
  struct raugvite_binding binding;
  expect("a line", raugvite_next_line(&lines, &line) == 1 && line.steps == 9 && line.input_count == 2 && raugvite_next_line(&lines, &line) == 0);
  struct raugvite_bindings bindings = raugvite_bindings_of((const uint8_t *)job, strlen(job), &line);
  expect("?e1", raugvite_next_binding(&bindings, &binding) == 1 && binding.variable == 6 && binding.bound && binding.is.length == 3);
  expect("?a9", raugvite_next_binding(&bindings, &binding) == 1 && binding.variable == 39 && binding.bound && binding.is.cells[0] == 1);
  expect("no more", raugvite_next_binding(&bindings, &binding) == 0 && raugvite_next_binding(&bindings, &binding) == 0);
  bindings = raugvite_bindings_of((const uint8_t *)other, strlen(other), &line);
  expect("of another job", raugvite_next_binding(&bindings, &binding) == 1 && raugvite_next_binding(&bindings, &binding) == -1);
}

static void try_samples(void) {
  const uint16_t sample[] = {4097, 4, 4101, 1, 4, 4105, 4097, 0, 0}, last[] = {4 * 5119 + 1}, past[] = {4 * 5120 + 1};
  struct raugvite_known known;
  texts_of("'Q2 'Q03 'Q", "'Q5 'Q9999 'Q5121 'q1 'Q4x");
  expect("a sample", raugvite_known_of(sample, 9, 4, 3, &known) == 1 && known.input_count == 2 && known.inputs.length == 4 && known.output.cells == sample + 4);
  expect("new atoms leave out names of symbols", is_text(sample + 1, 3, RAUGVITE_CONS, "(cons 'Q3 'Q2)") && is_text(sample + 4, 3, RAUGVITE_COLON, "'Q4:'Q1"));
  expect("the last new atom, and none behind it", is_text(last, 1, RAUGVITE_CONS, "'Q4098") && is_text(past, 1, RAUGVITE_CONS, "'"));
  expect("no line", raugvite_known_of(sample, 9, 0, 0, &known) == 0 && known.output.length == 0);
  expect("no trees", raugvite_known_of(sample, 9, 3, 4, &known) == -1 && raugvite_known_of(sample, 9, 4, 2, &known) == -1 && known.inputs.length == 0);
  expect("too few cells", raugvite_known_of(sample, 6, 4, 3, &known) == -1 && raugvite_known_of(sample, 3, 4, 3, &known) == -1);
  expect("numbers without end", raugvite_known_of(sample, 9, SIZE_MAX, 1, &known) == -1 && raugvite_known_of(sample, 9, 4, SIZE_MAX, &known) == -1);
}

int main(void) {
  size_t read = 0;
  try_writing();
  for (int heads = 0; heads < 2; heads++) {
    try_depth(65535, heads, 1);
    try_depth(65537, heads, 0);
  }
  for (size_t i = 0; i < 20000; i++) read += try_random();
  expect("some of the random cells are lines", read > 10000);
  try_meanings();
  try_places();
  try_bindings();
  try_samples();
  printf("%zu passed, %zu failed\n", passed, failed);
  return failed != 0;
}
