/* What the parts of the front end share. */
#ifndef FRONT_H
#define FRONT_H

#include "raugvite.h"
#include "raugvite_lines.h"

#include <stdbool.h>

/* The exit status. */
enum status {
  DONE = 0,     /* whole; of a run: a value */
  CUT = 1,      /* cut; of a run: no end within the job's steps */
  STOPPED = 2,  /* 21 to 23 */
  REFUSED = 3,  /* 1 to 13 and 20 */
  FAILED = 4    /* wrong words on the command line, a file that cannot be read, output that cannot be written */
};

/* A text and the name that messages have for it. */
struct source {
  const char *name;
  uint8_t *bytes;
  size_t length;
  bool failed; /* it could not be read, and counts as empty */
};

/* Both texts, and what the library answered. */
struct answer {
  struct source program, job;
  bool runs;    /* a run, else a listing */
  bool samples; /* printed with samples */
  size_t number, said[6];
  uint16_t *cells;
  size_t cells_length;
};

/* A text that grows. Where there is no memory for it, `failed` says so and the rest is dropped. */
struct text {
  char *bytes;
  size_t length, room;
  bool failed;
};

/* c/files.c */
void read_source(struct source *source, const char *path, size_t room);
bool write_out(const void *bytes, size_t length);
void text_add(struct text *text, const char *bytes, size_t length);
void text_put(struct text *text, const char *format, ...);
void free_text(struct text *text);
enum status text_write(struct text *text);

/* c/messages.c */
size_t find_word(const struct source *source, const char *word);
void report(const struct answer *answer);

/* c/show.c: the lines for reading, in rows of at most so many columns, by their steps or in the listing's own order. */
enum status show_lines(const struct answer *answer, size_t columns, bool unsorted);

#endif
