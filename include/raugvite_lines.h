/* What a caller of raugvite.h needs so as not to decode cells: the lines of a listing, their samples and the value of a run as trees, trees as text,
 * what the job's variables are in a line, what each number means, and where an offset stands in its text.
 *
 * These functions are written in C (c/lines.c), tested and not proved. They allocate nothing and keep nothing. Whatever the arrays hold, they
 * read nothing outside them: cells that no listing leaves are found out and said. No pointer may be null, also where its length is 0; only
 * `out` of raugvite_write_tree may be, where its room is 0, and the cells of a tree of length 0, which stands for no tree and may be handed
 * to each of them.
 */
#ifndef RAUGVITE_LINES_H
#define RAUGVITE_LINES_H

#include <stddef.h>
#include <stdint.h>

#ifdef __cplusplus
extern "C" {
#endif

/* The version of the library, as rust/raugvite/Cargo.toml has it. */
const char *raugvite_version(void);

enum {
  /* No printed text of a listing has more bytes, so that `out` of raugvite_list_print, lent once with this length, takes all of it:
   *
   *   first line   "stop21 256 1000000" and its line feed, or "refused p 13 32760" and its line feed: at most                           19
   *   each line    its number, at most 3 digits, a blank, its steps, at most 4, a line feed: 9, of 256 lines                         2,304
   *   each node    24 at most, of 16,384 in the lines together                                                                     393,216
   *
   * A node of a line's inputs and output is printed at most once: " ?e999=EXPR" is the part of the line that stands where the job first has
   * ?e999, and two variables first stand in different places. Such a part has 7 bytes before EXPR and a node at least; in EXPR a symbol
   * takes at most 17 (a quote and 16 characters), a variable 7 ("?e13290"), a pair 8 ("(cons ", " " and ")"). So a part takes 24 for each
   * of its nodes or less. A non-equality counts for 2 nodes and takes at most 38: " # ", two sides of 17 and a blank. */
  RAUGVITE_LISTING_BYTES = 395539,

  /* The same with samples: "(in", ") (out ", ")" and a line feed under each line are 12, of 256 lines 3,072; a node of inputs and output takes at most 18,
   * a symbol of 17 and a blank before it, of 16,384 nodes 294,912. */
  RAUGVITE_SAMPLED_BYTES = 693523,

  /* The same of a run: "value 1000 ", a value of at most 4,095 nodes (a tree has an odd number), which are 2,048 symbols of 17 bytes and 2,047
   * pairs of 8, and a line feed. */
  RAUGVITE_RUN_BYTES = 51204,

  /* Both texts together have at most so many symbols, and a symbol so many characters. */
  RAUGVITE_SYMBOLS = 1024,
  RAUGVITE_NAME = 16,

  /* A sample has at most so many new atoms: no line has more nodes. Their numbers are 1,024 and above. */
  RAUGVITE_NEW_ATOMS = 4096
};

/* What a number means that raugvite_list or raugvite_run returns, as a sentence without a full stop: 1 to 13 and 20 to 23; NULL for each other. */
const char *raugvite_meaning(size_t number);

/* Where an offset stands in a text: line and column from 1, the column in bytes, and the offset of the line's first byte. An offset
 * behind the text counts as its length. */
struct raugvite_place {
  size_t line, column, start;
};
struct raugvite_place raugvite_place_of(const uint8_t *text, size_t length, size_t offset);

/* The cells of an expression, or of several one behind the other; length 0 where there is none. They lie in the array that was handed in. */
struct raugvite_tree {
  const uint16_t *cells;
  size_t length;
};

enum raugvite_kind {
  RAUGVITE_NONE,   /* no tree */
  RAUGVITE_PAIR,   /* a pair */
  RAUGVITE_SYMBOL, /* the symbol of a number */
  RAUGVITE_ANY,    /* ?eK: any value */
  RAUGVITE_ATOM    /* ?aK: an atom */
};

/* What stands first in the tree, and the number of a symbol or a variable (0 of a pair and where there is none). */
enum raugvite_kind raugvite_kind_of(struct raugvite_tree tree);
size_t raugvite_number_of(struct raugvite_tree tree);

/* The parts of a pair; of anything else a tree of length 0. */
struct raugvite_tree raugvite_head(struct raugvite_tree pair);
struct raugvite_tree raugvite_tail(struct raugvite_tree pair);

/* Takes the first tree off several: 1, or 0 where none is left or the cells are no tree. */
int raugvite_next_tree(struct raugvite_tree *several, struct raugvite_tree *tree);

/* A line of a listing. */
struct raugvite_line {
  size_t number; /* from 1 */
  size_t steps;
  size_t input_count;
  struct raugvite_tree inputs; /* one behind the other; raugvite_next_tree or raugvite_input parts them */
  struct raugvite_tree output;
  size_t unequal_count;        /* the non-equalities, oldest first */
  const uint16_t *unequal;     /* two cells for each */
};

/* The lines that are still to be read; filled in by raugvite_lines_of. */
struct raugvite_lines {
  const uint16_t *cells;
  size_t length, left, number;
};

/* The lines in the `answer` that raugvite_list or raugvite_list_print left; `lines` is said[RAUGVITE_LINES]. */
struct raugvite_lines raugvite_lines_of(const uint16_t *answer, size_t answer_length, size_t lines);

/* The next line: 1; 0 where all were read; -1 where the cells are not those of a line, which no listing leaves. */
int raugvite_next_line(struct raugvite_lines *lines, struct raugvite_line *line);

/* Input i of a line, and the sides of its non-equality i, from 0 on; trees of length 0 where there is none. */
struct raugvite_tree raugvite_input(const struct raugvite_line *line, size_t i);
struct raugvite_tree raugvite_left(const struct raugvite_line *line, size_t i);
struct raugvite_tree raugvite_right(const struct raugvite_line *line, size_t i);

/* The sample of a line. */
struct raugvite_known {
  size_t input_count;
  struct raugvite_tree inputs; /* one behind the other; raugvite_next_tree parts them */
  struct raugvite_tree output;
};

/* The sample that raugvite_sample left in `sample`; `inputs` and `output` are said[RAUGVITE_INPUTS] and said[RAUGVITE_OUTPUT]: 1; 0 where there was no such
 * line; -1 where the cells are not those of a sample, which raugvite_sample does not leave. */
int raugvite_known_of(const uint16_t *sample, size_t sample_length, size_t inputs, size_t output, struct raugvite_known *known);

/* The value that raugvite_run left in `answer`; `length` is said[RAUGVITE_LENGTH]. A tree of length 0 where there is none. */
struct raugvite_tree raugvite_value(const uint16_t *answer, size_t answer_length, size_t length);

/* What a variable of the job is in a line. */
struct raugvite_binding {
  uint16_t variable;       /* its cell: {&binding.variable, 1} is its tree */
  struct raugvite_tree is; /* the variable itself where it is not bound */
  int bound;               /* 1 where it is, else 0 */
};

/* The job's variables that are still to be read; filled in by raugvite_bindings_of. */
struct raugvite_bindings {
  const uint8_t *job;
  size_t length, at;
  struct raugvite_tree rest, output;
  int within;
  uint8_t seen[250]; /* a bit for each of ?e1 to ?e999 and ?a1 to ?a999 */
};

/* What the variables of the job are in a line of its listing, in order of first standing in the job. The job's text stays the caller's and
 * has to stay where it is. */
struct raugvite_bindings raugvite_bindings_of(const uint8_t *job, size_t job_length, const struct raugvite_line *line);

/* The next one: 1; 0 where all were read; -1 where the line is none of this job. */
int raugvite_next_binding(struct raugvite_bindings *bindings, struct raugvite_binding *binding);

/* The names of the symbols, by number; they point into the two texts. A new atom's name is Q and a number: symbol 1,024 + k has new_atom[k]. */
struct raugvite_symbols {
  size_t count;
  const uint8_t *name[RAUGVITE_SYMBOLS];
  uint8_t length[RAUGVITE_SYMBOLS];
  uint16_t new_atom[RAUGVITE_NEW_ATOMS];
};

/* The names of two accepted texts: symbols are numbered by first standing, in the program and then in the job. The numbers of new atoms rise, from 1 up, and
 * leave out each that makes a symbol's name. */
void raugvite_symbols_of(struct raugvite_symbols *symbols, const uint8_t *program, size_t program_length, const uint8_t *job, size_t job_length);

enum raugvite_notation {
  RAUGVITE_CONS, /* (cons 'A (cons 'B ?a16)): as a listing is printed and a job is written */
  RAUGVITE_COLON /* 'A:'B:?a16: a pair is HEAD:TAIL, and brackets stand around a head that is a pair itself */
};

/* Writes a tree as text, as snprintf does: at most `room` bytes with a zero behind the text, and returns how many bytes the whole text has
 * without that zero. A symbol without a name is written as a quote. Cells that are no tree, or over 65,535 of them, are written as nothing. */
size_t raugvite_write_tree(char *out, size_t room, struct raugvite_tree tree, enum raugvite_notation notation,
                           const struct raugvite_symbols *symbols);

#ifdef __cplusplus
}
#endif

#endif
