/* Files read whole, and standard output written whole or with a word about it. */
#define _POSIX_C_SOURCE 200809L

#include "front.h"

#include <errno.h>
#include <fcntl.h>
#include <poll.h>
#include <stdarg.h>
#include <stdio.h>
#include <stdlib.h>
#include <string.h>
#include <unistd.h>

/* As many bytes as there is room for, up to the end of the file: 1, or 0 where a read fails. */
static int read_whole(int fd, struct source *source, size_t room) {
  while (source->length < room) {
    ssize_t got = read(fd, source->bytes + source->length, room - source->length);
    if (got == 0) return 1;
    if (got > 0) source->length += (size_t)got;
    else if (errno != EINTR) return 0;
  }
  return 1;
}

/* "A file that cannot be read counts as empty" (01): also where a part of it was read before a read failed. Standard error says so. */
void read_source(struct source *source, const char *path, size_t room) {
  bool standard = strcmp(path, "-") == 0;
  source->name = standard ? "standard input" : path;
  source->length = 0;
  int fd = standard ? STDIN_FILENO : open(path, O_RDONLY);
  source->failed = fd < 0 || !read_whole(fd, source, room);
  if (source->failed) {
    fprintf(stderr, "ura: %s: %s\n", source->name, strerror(errno));
    source->length = 0;
  }
  if (fd >= 0 && !standard) close(fd);
}

/* Waits for a reader that is behind: a pipe may be set not to wait. Where it takes nothing for ten seconds, writing counts as failed. */
static bool wait_for_reader(void) {
  struct pollfd out = {.fd = STDOUT_FILENO, .events = POLLOUT};
  int ready = poll(&out, 1, 10000);
  if (ready == 0) errno = EAGAIN;
  return ready > 0 || (ready < 0 && errno == EINTR);
}

static bool write_whole(const char *bytes, size_t length) {
  while (length > 0) {
    ssize_t taken = write(STDOUT_FILENO, bytes, length);
    if (taken >= 0) {
      bytes += taken;
      length -= (size_t)taken;
    } else if (errno != EINTR && (errno != EAGAIN || !wait_for_reader())) {
      return false;
    }
  }
  return true;
}

/* Lines that are missing must not go unnoticed: a loader is released from the list. */
bool write_out(const void *bytes, size_t length) {
  if (write_whole(bytes, length)) return true;
  fprintf(stderr, "ura: standard output: %s\nura: what was printed is NOT COMPLETE\n", strerror(errno));
  return false;
}

/* Room for so many bytes more and a zero behind them. */
static bool make_room(struct text *text, size_t more) {
  if (text->failed) return false;
  if (text->length + more < text->room) return true;
  size_t room = 2 * (text->length + more + 1);
  char *bytes = realloc(text->bytes, room);
  text->failed = bytes == NULL;
  if (text->failed) return false;
  text->bytes = bytes;
  text->room = room;
  return true;
}

void text_add(struct text *text, const char *bytes, size_t length) {
  if (!make_room(text, length)) return;
  memcpy(text->bytes + text->length, bytes, length);
  text->length += length;
  text->bytes[text->length] = '\0';
}

void text_put(struct text *text, const char *format, ...) {
  va_list values, again;
  va_start(values, format);
  va_copy(again, values);
  int length = vsnprintf(NULL, 0, format, values);
  if (length >= 0 && make_room(text, (size_t)length)) {
    vsnprintf(text->bytes + text->length, (size_t)length + 1, format, again);
    text->length += (size_t)length;
  }
  va_end(again);
  va_end(values);
}

void free_text(struct text *text) {
  free(text->bytes);
  *text = (struct text){0};
}

/* Writes the text to standard output and gives its memory back. */
enum status text_write(struct text *text) {
  bool written = false;
  if (text->failed) fputs("ura: there is no memory for the output\n", stderr);
  else written = write_out(text->bytes, text->length);
  free_text(text);
  return written ? DONE : FAILED;
}
