/* Prints the listing of a program and a job, as examples/list.c does, but line by line from what stands in storage: lines [--samples] PROG JOB.
 * A file that cannot be read counts as empty. Each line is read through raugvite_lines.h, so that a caller sees how its parts are had. */
#include "raugvite.h"
#include "raugvite_lines.h"

#include <stdio.h>
#include <stdlib.h>
#include <string.h>

/* One byte more than a text may have, so that a longer file is refused with 1. */
enum { PROGRAM = 32769, JOB = 8193 };

static size_t read_text(const char *path, uint8_t *text, size_t length) {
  FILE *file = fopen(path, "rb");
  if (!file) return 0;
  size_t n = fread(text, 1, length, file);
  if (ferror(file)) n = 0;
  fclose(file);
  return n;
}

/* A tree's text fits the bound of a whole listing. */
static void print_tree(struct raugvite_tree tree, const struct raugvite_symbols *symbols) {
  static char text[RAUGVITE_LISTING_BYTES];
  raugvite_write_tree(text, sizeof text, tree, RAUGVITE_CONS, symbols);
  fputs(text, stdout);
}

static void print_line(const struct raugvite_line *line, const uint8_t *job, size_t job_length, const struct raugvite_symbols *symbols) {
  struct raugvite_bindings bindings = raugvite_bindings_of(job, job_length, line);
  struct raugvite_binding binding;
  printf("%zu %zu", line->number, line->steps);
  while (raugvite_next_binding(&bindings, &binding) == 1) {
    if (!binding.bound) continue;
    putchar(' ');
    print_tree((struct raugvite_tree){&binding.variable, 1}, symbols);
    putchar('=');
    print_tree(binding.is, symbols);
  }
  for (size_t i = 0; i < line->unequal_count; i++) {
    fputs(" # ", stdout);
    print_tree(raugvite_left(line, i), symbols);
    putchar(' ');
    print_tree(raugvite_right(line, i), symbols);
  }
  putchar('\n');
}

/* The sample of the line, under it. */
static int print_sample(const uint16_t *answer, size_t answer_length, size_t line, uint16_t *sample, const struct raugvite_symbols *symbols) {
  size_t said[2];
  struct raugvite_known known;
  struct raugvite_tree input;
  raugvite_sample(answer, answer_length, line, sample, raugvite_sample_cells(), said, 2);
  if (raugvite_known_of(sample, raugvite_sample_cells(), said[RAUGVITE_INPUTS], said[RAUGVITE_OUTPUT], &known) != 1) return 0;
  fputs("(in", stdout);
  while (raugvite_next_tree(&known.inputs, &input)) {
    putchar(' ');
    print_tree(input, symbols);
  }
  fputs(") (out ", stdout);
  print_tree(known.output, symbols);
  puts(")");
  return 1;
}

static void print_heading(size_t number, const size_t *said) {
  if (number == 0) printf("%s %zu %zu\n", said[RAUGVITE_CUT] ? "cut" : "whole", said[RAUGVITE_LINES], said[RAUGVITE_TRANSITIONS]);
  else if (number >= 21) printf("stop%zu %zu %zu\n", number, said[RAUGVITE_LINES], said[RAUGVITE_TRANSITIONS]);
  else printf("refused %c %zu %zu\n", (int)said[RAUGVITE_LETTER], number, said[RAUGVITE_OFFSET]);
}

int main(int count, char **words) {
  int samples = count == 4 && strcmp(words[1], "--samples") == 0;
  if (count != 3 && !samples) {
    fputs("usage: lines [--samples] PROG JOB\n", stderr);
    return 2;
  }
  static uint8_t program[PROGRAM], job[JOB];
  static struct raugvite_symbols symbols;
  size_t p = read_text(words[count - 2], program, PROGRAM), j = read_text(words[count - 1], job, JOB);
  size_t work_length = raugvite_list_work(), answer_length = raugvite_list_answer();
  uint16_t *work = calloc(work_length, sizeof *work), *answer = calloc(answer_length, sizeof *answer);
  uint16_t *sample = calloc(raugvite_sample_cells(), sizeof *sample);
  if (!work || !answer || !sample) return 1;
  size_t said[5]; /* written in full: the storage is long enough, so that the number is not 20 */
  size_t number = raugvite_list(program, p, job, j, work, work_length, answer, answer_length, said, 5);
  print_heading(number, said);
  raugvite_symbols_of(&symbols, program, p, job, j);
  struct raugvite_lines lines = raugvite_lines_of(answer, answer_length, said[RAUGVITE_LINES]);
  struct raugvite_line line;
  int more;
  while ((more = raugvite_next_line(&lines, &line)) == 1) {
    print_line(&line, job, j, &symbols);
    if (samples && !print_sample(answer, answer_length, line.number, sample, &symbols)) break;
  }
  free(work);
  free(answer);
  free(sample);
  return more != 0 || fflush(stdout) != 0 || ferror(stdout);
}
