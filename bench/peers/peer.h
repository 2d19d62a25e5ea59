/* The common part of the programs in C: it reads a dictionary's path, and words or a text, and asks the library.
 *
 *     PROGRAM DICTIONARY FILE words|text TIMES
 *
 * FILE is a list of words, one a line, or a text. The program goes through all of it TIMES times. It prints how many
 * breaks it found at the last time, and the nanoseconds of processor time that all of them took. */
#include <ctype.h>
#include <stdint.h>
#include <stdio.h>
#include <stdlib.h>
#include <string.h>
#include <time.h>

/* Each program has these: it loads a dictionary, and returns the number of breaks of a word or of a text. */
static void load(const char *path);
static size_t breaks_of_word(const char *word, size_t length);
static size_t breaks_of_text(const char *text, size_t length, char *marked);

static void die(const char *said) {
  fprintf(stderr, "%s\n", said);
  exit(1);
}

static char *read_file(const char *path, size_t *length) {
  FILE *file = fopen(path, "rb");
  if (!file || fseek(file, 0, SEEK_END) != 0) die(path);
  *length = (size_t)ftell(file);
  rewind(file);
  char *bytes = malloc(*length + 1);
  if (!bytes || fread(bytes, 1, *length, file) != *length) die(path);
  bytes[*length] = 0;
  fclose(file);
  return bytes;
}

static size_t breaks_of_lines(const char *lines, size_t length) {
  size_t found = 0;
  for (const char *at = lines, *end = lines + length; at < end;) {
    const char *next = memchr(at, '\n', (size_t)(end - at));
    if (!next) next = end;
    if (next > at) found += breaks_of_word(at, (size_t)(next - at));
    at = next + 1;
  }
  return found;
}

/* The processor time of this process. */
static uint64_t nanoseconds(void) {
  struct timespec time;
  if (clock_gettime(CLOCK_PROCESS_CPUTIME_ID, &time) != 0) die("there is no clock");
  return (uint64_t)time.tv_sec * 1000000000 + (uint64_t)time.tv_nsec;
}

/* Each program's `main` calls it. */
static int go_through(int argc, char **argv) {
  if (argc != 5) die("usage: PROGRAM DICTIONARY FILE words|text TIMES");
  size_t length, found = 0;
  char *given = read_file(argv[2], &length);
  char *marked = malloc(2 * length + 64);
  int is_text = strcmp(argv[3], "text") == 0;
  long times = atol(argv[4]);
  load(argv[1]);
  uint64_t begun = nanoseconds();
  for (long i = 0; i < times; i++)
    found = is_text ? breaks_of_text(given, length, marked) : breaks_of_lines(given, length);
  printf("%zu %llu\n", found, (unsigned long long)(nanoseconds() - begun));
  return 0;
}
