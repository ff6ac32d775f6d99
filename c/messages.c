/* What standard error says of an answer: where a text is refused and why, or what a listing is not and what can be done about it. */
#include "front.h"

#include <stdio.h>
#include <string.h>

/* How much of a long line is shown, and how much of that stands before the place. */
enum { SHOWN = 100, BEFORE = 60 };

static bool parts_words(uint8_t byte) { return byte == '\0' || strchr(" \t\n()[]", byte) != NULL; }

static bool begins(const struct source *source, size_t at, const char *with) {
  size_t n = strlen(with);
  return at <= source->length && n <= source->length - at && memcmp(source->bytes + at, with, n) == 0;
}

static size_t word_end(const struct source *source, size_t at) {
  while (at < source->length && !parts_words(source->bytes[at])) at++;
  return at;
}

/* The offset of a word's first standing, or the text's length. A symbol has its quote, so that none is taken for a word of the grammar. */
size_t find_word(const struct source *source, const char *word) {
  for (size_t at = 0; at < source->length;) {
    size_t end = word_end(source, at);
    if (end - at == strlen(word) && begins(source, at, word)) return at;
    at = end + 1;
  }
  return source->length;
}

/* The numeral behind a word of an accepted job. */
static size_t number_behind(const struct source *job, const char *word) {
  size_t at = word_end(job, find_word(job, word)), number = 0;
  while (at < job->length && parts_words(job->bytes[at])) at++;
  for (; at < job->length && job->bytes[at] >= '0' && job->bytes[at] <= '9'; at++) number = 10 * number + (size_t)(job->bytes[at] - '0');
  return number;
}

/* Whether something that starts a comment elsewhere stands in a part of the text. */
static bool has_comment(const struct source *source, size_t from, size_t to) {
  for (size_t at = from; at < to; at++) {
    if (source->bytes[at] == ';' || source->bytes[at] == '#' || begins(source, at, "//")) return true;
  }
  return false;
}

static const char *const NO_COMMENTS = "TSG has no comments: leave out what stands behind ; or # or //";

static const char *hint_of_byte(const struct source *source, size_t offset, size_t line_start) {
  if (offset == 0 && begins(source, 0, "\xEF\xBB\xBF")) return "the text begins with a UTF-8 byte order mark: save it without one";
  if (begins(source, offset, "\r")) return "a carriage return: the lines have to end in a line feed alone (tr -d '\\r' takes the others out)";
  if (has_comment(source, line_start, offset)) return NO_COMMENTS;
  if (begins(source, offset, "\xE2\x80\x98") || begins(source, offset, "\xE2\x80\x99")) return "a typographic quote: a symbol begins with '";
  return NULL;
}

/* For what is written most often and is none of the language; NULL where there is nothing to say. */
static const char *hint_of(const struct answer *answer, const struct source *source, size_t line_start) {
  size_t offset = answer->said[RAUGVITE_OFFSET], end = word_end(source, offset);
  if (answer->number == 2) return hint_of_byte(source, offset, line_start);
  if (answer->number != 3) return NULL;
  if (source->length == 0) return "the text is empty";
  if (offset == source->length) return "the text ends here: a closing bracket may be missing";
  if (has_comment(source, offset, end)) return NO_COMMENTS;
  if (source == &answer->program && end - offset == 3 && begins(source, offset, "job")) return "this is a job: the program comes first, then the job";
  if (source == &answer->job && end - offset == 6 && begins(source, offset, "define")) return "this is a program, and the job is due here";
  return NULL;
}

static void put_byte(uint8_t byte) { putc(byte == '\t' || (byte >= 32 && byte <= 126) ? byte : '?', stderr); }

/* The line of the text, and a caret under the column. The caret's row has the line's tabs, so that it stands right wherever tabs stop. */
static void show_place(const struct source *source, struct raugvite_place place) {
  size_t end = place.start, before = place.column - 1;
  while (end < source->length && source->bytes[end] != '\n') end++;
  size_t from = place.start + (end - place.start > SHOWN && before > BEFORE ? before - BEFORE : 0);
  size_t to = end - from > SHOWN ? from + SHOWN : end;
  const char *dots = from > place.start ? "..." : "";
  fprintf(stderr, "  %s", dots);
  for (size_t at = from; at < to; at++) put_byte(source->bytes[at]);
  fprintf(stderr, "%s\n  %*s", to < end ? "..." : "", (int)strlen(dots), "");
  for (size_t at = from; at < place.start + before; at++) putc(source->bytes[at] == '\t' ? '\t' : ' ', stderr);
  fputs("^\n", stderr);
}

static void report_refusal(const struct answer *answer) {
  const struct source *source = answer->said[RAUGVITE_LETTER] == 'j' ? &answer->job : &answer->program;
  if (answer->number == 20) fprintf(stderr, "ura: refused 20: %s\n", raugvite_meaning(20));
  if (answer->number == 20 || source->failed) return; /* of a file that cannot be read the system's word is there */
  struct raugvite_place place = raugvite_place_of(source->bytes, source->length, answer->said[RAUGVITE_OFFSET]);
  fprintf(stderr, "%s:%zu:%zu: refused %zu: %s\n", source->name, place.line, place.column, answer->number, raugvite_meaning(answer->number));
  if (place.start < source->length) show_place(source, place); /* else there is no line to show: the text ends with the one before */
  const char *hint = hint_of(answer, source, place.start);
  if (hint) fprintf(stderr, "hint: %s\n", hint);
}

/* What to do where one of the job's three numbers stands in the way. */
static void advise(const char *word, size_t number, size_t most) {
  if (number < most) fprintf(stderr, "raise %s in the job, or narrow the job\n", word);
  else fprintf(stderr, "narrow the job; %s is at its most\n", word);
}

static void report_run(const struct answer *answer) {
  size_t steps = number_behind(&answer->job, "steps");
  if (answer->number == 21) {
    fputs("NOT COMPLETE: a state of the run has over 4096 nodes, and the run stopped there without a value: make the inputs smaller\n", stderr);
  } else if (answer->said[RAUGVITE_LENGTH] == 0) {
    fprintf(stderr, "NOT COMPLETE: the run reaches no end within %zu steps and has no value: ", steps);
    fputs(steps < 1000 ? "raise steps in the job\n" : "make the inputs smaller; steps is at its most\n", stderr);
  }
}

static void report_listing(const struct answer *answer) {
  size_t steps = number_behind(&answer->job, "steps"), walk = number_behind(&answer->job, "walk"), table = number_behind(&answer->job, "table");
  if (answer->number == 21) {
    fputs("NOT COMPLETE: a configuration has over 4096 nodes, and the lines are only those found before it: narrow the job\n", stderr);
  } else if (answer->number == 22 && answer->said[RAUGVITE_LINES] < table) {
    fputs("NOT COMPLETE: one line more takes the lines over 16384 nodes, and they are only those found before it: narrow the job\n", stderr);
  } else if (answer->number == 22) {
    fprintf(stderr, "NOT COMPLETE: there are more lines than the job's table of %zu takes, and these are only the first: ", table);
    advise("table", table, 256);
  } else if (answer->number == 23) {
    fprintf(stderr, "NOT COMPLETE: the walk makes more than %zu transitions, and the lines are only those found before: ", walk);
    advise("walk", walk, 1000000);
  } else if (answer->said[RAUGVITE_CUT] == 1) {
    fprintf(stderr, "NOT COMPLETE: some files of the class run longer than %zu steps, and no line says anything of them: ", steps);
    advise("steps", steps, 1000);
  }
}

/* Nothing where the listing is whole or the run has a value. */
void report(const struct answer *answer) {
  if (answer->number != 0 && answer->number < 21) report_refusal(answer);
  else if (answer->runs) report_run(answer);
  else report_listing(answer);
}
