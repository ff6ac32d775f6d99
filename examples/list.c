/* Prints the listing of a program and a job: list PROG JOB. A file that cannot be read counts as empty. */
#include "raugvite.h"

#include <stdio.h>
#include <stdlib.h>

/* One byte more than a text may have, so that a longer file is refused with 1. */
enum { PROGRAM = 32769, JOB = 8193, PAGE = 65536 };

static size_t read_text(const char *path, uint8_t *text, size_t length) {
  FILE *file = fopen(path, "rb");
  if (!file) return 0;
  size_t n = fread(text, 1, length, file);
  if (ferror(file)) n = 0;
  fclose(file);
  return n;
}

int main(int count, char **words) {
  if (count != 3) {
    fputs("usage: list PROG JOB\n", stderr);
    return 2;
  }
  static uint8_t program[PROGRAM], job[JOB], page[PAGE];
  size_t p = read_text(words[1], program, PROGRAM), j = read_text(words[2], job, JOB);
  size_t work_length = raugvite_list_work(), answer_length = raugvite_list_answer();
  uint16_t *work = calloc(work_length, sizeof *work), *answer = calloc(answer_length, sizeof *answer);
  if (!work || !answer) return 1;
  size_t said[6];
  size_t number = raugvite_list_print(program, p, job, j, work, work_length, answer, answer_length, said, 6, page, PAGE);
  size_t n = said[RAUGVITE_BYTES]; /* the storage is long enough, so that the number is not 20 */
  fwrite(page, 1, n, stdout);
  for (size_t from = n; n == PAGE; from += n) {
    n = raugvite_print_list(program, p, job, j, number, said, 6, answer, answer_length, from, page, PAGE);
    fwrite(page, 1, n, stdout);
  }
  free(work);
  free(answer);
  return fflush(stdout) != 0 || ferror(stdout);
}
