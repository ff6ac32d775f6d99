/* A front end over the library that has an exit status. What list and run print on standard output is, byte for byte, what the proved program
 * ura prints; standard error says in words what is wrong with a text, a file or a listing. Another command is one more entry of the table
 * COMMANDS: usage, help and errors are made from it. */
#define _POSIX_C_SOURCE 200809L

#include "front.h"

#include <signal.h>
#include <stdio.h>
#include <stdlib.h>
#include <string.h>

enum { ARGUMENTS = 2, OPTIONS = 2 };

/* One byte more than a text may have, so that a longer file is refused with 1; and one more than is ever printed, so that it would show if
 * there were more. Nothing is longer than a listing with samples. */
enum { PROGRAM = 32769, JOB = 8193, PRINTED = RAUGVITE_SAMPLED_BYTES + 1 };

struct option {
  const char *name, *value, *help; /* `value` is NULL where the option takes none */
};

/* The words of a call: the arguments and, by their places in the command's table, the values of options; a name where there is no value. */
struct call {
  const struct command *command;
  const char *arguments[ARGUMENTS], *values[OPTIONS];
  size_t count;
};

struct command {
  const char *name, *arguments; /* `arguments` as usage has them */
  size_t least, most;           /* how many there may be */
  struct option options[OPTIONS];
  const char *help;
  enum status (*start)(const struct call *call);
};

static enum status list(const struct call *call);
static enum status run(const struct call *call);
static enum status show(const struct call *call);
static enum status help(const struct call *call);
static enum status version(const struct call *call);

static const struct command COMMANDS[] = {
    {"list",
     "PROG JOB",
     2,
     2,
     {{"--samples", NULL, "under each line one known input with its output"}},
     "the listing of the program in the file PROG and the job in the file JOB",
     list},
    {"run", "PROG JOB", 2, 2, {{0}}, "the program run forwards on the job's inputs", run},
    {"show",
     "PROG JOB",
     2,
     2,
     {{"--columns", "N", "rows of at most N columns, 64 to 9999 (99)"}, {"--unsorted", NULL, "in the order of the listing, not by steps"}},
     "the listing for reading: pairs as HEAD:TAIL, by steps, with a mark behind each variable that is left open",
     show},
    {"help", "[COMMAND | numbers]", 0, 1, {{0}}, "what a command does, or what the numbers of refusals and stops mean", help},
    {"version", "", 0, 0, {{0}}, "the version of the library", version},
};

enum { COMMAND_COUNT = sizeof COMMANDS / sizeof *COMMANDS };

/* Usage and errors. */

static const struct command *find_command(const char *name) {
  for (size_t i = 0; i < COMMAND_COUNT; i++) {
    if (strcmp(COMMANDS[i].name, name) == 0) return &COMMANDS[i];
  }
  return NULL;
}

static void add_usage(struct text *text, const struct command *command) {
  text_put(text, "ura %s", command->name);
  for (size_t i = 0; i < OPTIONS && command->options[i].name; i++) {
    const struct option *option = &command->options[i];
    text_put(text, " [%s%s%s]", option->name, option->value ? " " : "", option->value ? option->value : "");
  }
  text_put(text, "%s%s", *command->arguments ? " " : "", command->arguments);
}

static enum status misused(const struct command *command, const char *before, const char *word, const char *after) {
  struct text usage = {0};
  add_usage(&usage, command);
  fprintf(stderr, "ura: %s: %s%s%s\n", command->name, before, word, after);
  if (!usage.failed) fprintf(stderr, "usage: %s\n", usage.bytes);
  free_text(&usage);
  return FAILED;
}

static enum status no_command(const char *word) {
  fprintf(stderr, "ura: %s is no command; the commands are", word);
  for (size_t i = 0; i < COMMAND_COUNT; i++) fprintf(stderr, "%s %s", i == 0 ? "" : ",", COMMANDS[i].name);
  fputs("\nusage: ura [COMMAND [OPTION ..] [FILE ..]]\n", stderr);
  return FAILED;
}

/* Help. */

static void add_options(struct text *text, const struct command *command) {
  for (size_t i = 0; i < OPTIONS && command->options[i].name; i++) {
    const struct option *option = &command->options[i];
    int width = 12 - (int)strlen(option->name);
    text_put(text, "    %s %-*s  %s\n", option->name, width > 0 ? width : 0, option->value ? option->value : "", option->help);
  }
}

static void add_command(struct text *text, const struct command *command) {
  text_put(text, "  ");
  add_usage(text, command);
  text_put(text, "\n    %s\n", command->help);
}

static void add_help(struct text *text) {
  text_put(text, "usage: ura [COMMAND [OPTION ..] [FILE ..]]\n\n");
  text_put(text, "  ura\n    the listing of prog.tsg and job.txt in the current folder\n");
  for (size_t i = 0; i < COMMAND_COUNT; i++) add_command(text, &COMMANDS[i]);
  text_put(text, "\nA file - is standard input; -- ends the options. A file that cannot be read counts as empty.\n"
                 "Exit status: 0 whole, or a run's value; 1 cut, or no value within the steps; 2 stopped by 21 to 23;\n"
                 "3 refused by 1 to 13 or 20; 4 wrong words, a file that cannot be read, output that cannot be written.\n");
}

static void add_numbers(struct text *text) {
  for (size_t number = 1; number <= 23; number++) {
    if (raugvite_meaning(number)) text_put(text, "%2zu  %s\n", number, raugvite_meaning(number));
  }
}

static enum status help_of(const struct command *command) {
  struct text text = {0};
  add_command(&text, command);
  add_options(&text, command);
  return text_write(&text);
}

static enum status help(const struct call *call) {
  struct text text = {0};
  const char *word = call->count > 0 ? call->arguments[0] : NULL;
  if (word && find_command(word)) return help_of(find_command(word));
  if (word && strcmp(word, "numbers") != 0) return no_command(word);
  if (word) add_numbers(&text);
  else add_help(&text);
  return text_write(&text);
}

static enum status version(const struct call *call) {
  struct text text = {0};
  (void)call;
  text_put(&text, "ura %s\n", raugvite_version());
  return text_write(&text);
}

/* Listings and runs. */

static enum status status_of(const struct answer *answer) {
  if (answer->program.failed || answer->job.failed) return FAILED;
  if (answer->number >= 21) return STOPPED;
  if (answer->number != 0) return REFUSED;
  bool within = answer->runs ? answer->said[RAUGVITE_LENGTH] > 0 : answer->said[RAUGVITE_CUT] == 0;
  return within ? DONE : CUT;
}

/* What is printed: the text, or the lines for reading where `columns` is not 0 and no text is refused. */
static bool print_answer(const struct answer *answer, const uint8_t *out, size_t length, size_t columns, bool unsorted) {
  bool refused = answer->number != 0 && answer->number < 21;
  if (columns > 0 && !refused) return show_lines(answer, columns, unsorted) == DONE;
  if (length < PRINTED) return write_out(out, length);
  fputs("ura: the text is longer than any that the library prints: nothing of it is printed\n", stderr);
  return false;
}

/* Lends storage and asks the library. The text that is printed stands in `out`, `length` bytes of it. */
static bool ask(struct answer *a, uint8_t *out, size_t *length) {
  size_t work_length = a->runs ? raugvite_run_work() : raugvite_list_work();
  a->cells_length = a->runs ? raugvite_run_answer() : raugvite_list_answer();
  uint16_t *work = calloc(work_length, sizeof *work);
  a->cells = calloc(a->cells_length, sizeof *a->cells);
  const uint8_t *p = a->program.bytes, *j = a->job.bytes;
  size_t pn = a->program.length, jn = a->job.length, n = a->cells_length;
  bool lent = work && a->cells;
  if (lent && a->runs) {
    a->number = raugvite_run(p, pn, j, jn, work, work_length, a->cells, n, a->said, 4);
    *length = raugvite_print_run(p, pn, j, jn, a->number, a->said, 4, a->cells, n, 0, out, PRINTED);
  } else if (lent) {
    size_t (*list_print)(const uint8_t *, size_t, const uint8_t *, size_t, uint16_t *, size_t, uint16_t *, size_t, size_t *, size_t, uint8_t *, size_t) =
        a->samples ? raugvite_list_print_sampled : raugvite_list_print;
    a->number = list_print(p, pn, j, jn, work, work_length, a->cells, n, a->said, 6, out, PRINTED);
    *length = a->number == 20 ? strlen((const char *)out) : a->said[RAUGVITE_BYTES]; /* 20 says nothing; zeros stand behind its text */
  }
  free(work);
  return lent;
}

enum question { LISTING, LISTING_WITH_SAMPLES, RUN };

/* Lists or runs the two files; where the lines are to be shown, `columns` is not 0. */
static enum status answer_files(const struct call *call, enum question question, size_t columns, bool unsorted) {
  static uint8_t program[PROGRAM], job[JOB], out[PRINTED];
  struct answer answer = {.program = {.bytes = program}, .job = {.bytes = job}, .runs = question == RUN, .samples = question == LISTING_WITH_SAMPLES};
  enum status status = FAILED;
  size_t length = 0;
  read_source(&answer.program, call->arguments[0], PROGRAM);
  read_source(&answer.job, call->arguments[1], JOB);
  if (ask(&answer, out, &length)) {
    bool printed = print_answer(&answer, out, length, columns, unsorted);
    report(&answer);
    status = printed ? status_of(&answer) : FAILED;
  } else {
    fputs("ura: there is no memory for the storage\n", stderr);
  }
  free(answer.cells);
  return status;
}

static enum status list(const struct call *call) {
  return answer_files(call, call->values[0] ? LISTING_WITH_SAMPLES : LISTING, 0, false);
}

static enum status run(const struct call *call) { return answer_files(call, RUN, 0, false); }

static enum status show(const struct call *call) {
  const char *wanted = call->values[0];
  size_t columns = 99;
  if (wanted) {
    bool numeral = *wanted && strlen(wanted) <= 4 && strspn(wanted, "0123456789") == strlen(wanted);
    columns = numeral ? (size_t)strtoul(wanted, NULL, 10) : 0;
    if (columns < 64) return misused(call->command, "--columns wants a number from 64 to 9999, not ", wanted, "");
  }
  return answer_files(call, LISTING, columns, call->values[1] != NULL);
}

/* The command line. */

/* Takes the option at words[0] into the call: how many words it is, 1 or 2; 0 where the command has no such option. A value that is missing
 * makes it more words than are left. */
static size_t take_option(struct call *call, char **words, size_t left) {
  for (size_t i = 0; i < OPTIONS && call->command->options[i].name; i++) {
    const struct option *option = &call->command->options[i];
    if (strcmp(option->name, words[0]) != 0) continue;
    size_t taken = option->value ? 2 : 1;
    if (taken <= left) call->values[i] = words[taken - 1];
    return taken;
  }
  return 0;
}

/* Starts the command with as many arguments as it takes. */
static enum status start(const struct call *call) {
  const struct command *command = call->command;
  size_t dashes = 0;
  char given[32];
  for (size_t i = 0; i < call->count && i < ARGUMENTS; i++) dashes += strcmp(call->arguments[i], "-") == 0;
  if (dashes > 1) return misused(command, "standard input can be one of the files, not both", "", "");
  if (call->count >= command->least && call->count <= command->most) return command->start(call);
  snprintf(given, sizeof given, "%zu argument%s given", call->count, call->count == 1 ? "" : "s");
  return misused(command, given, *command->arguments ? ", wanted: " : ", none wanted", command->arguments);
}

/* Sorts the words behind the command into options and arguments, and starts it. */
static enum status read_words(struct call *call, char **words, size_t left) {
  bool options = true;
  while (left > 0) {
    const char *word = words[0];
    size_t taken = 1;
    if (options && strcmp(word, "--help") == 0) return help_of(call->command);
    if (options && strcmp(word, "--") == 0) {
      options = false;
    } else if (options && word[0] == '-' && word[1] != '\0') {
      taken = take_option(call, words, left);
      if (taken == 0) return misused(call->command, "there is no option ", word, "");
      if (taken > left) return misused(call->command, "the value of ", word, " is missing");
    } else {
      if (call->count < ARGUMENTS) call->arguments[call->count] = word;
      call->count++;
    }
    words += taken;
    left -= taken;
  }
  return start(call);
}

int main(int count, char **words) {
  /* A reader that is gone is then an error of write, which is reported; else the system ends the program without a word. */
  signal(SIGPIPE, SIG_IGN);
  if (count < 2) {
    struct call here = {.command = &COMMANDS[0], .arguments = {"prog.tsg", "job.txt"}, .count = 2};
    return (int)list(&here);
  }
  const char *name = strcmp(words[1], "--help") == 0 ? "help" : strcmp(words[1], "--version") == 0 ? "version" : words[1];
  struct call call = {.command = find_command(name)};
  if (!call.command) return (int)no_command(words[1]);
  return (int)read_words(&call, words + 2, (size_t)count - 2);
}
