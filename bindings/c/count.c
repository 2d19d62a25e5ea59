/* Asks a dictionary text for the breaks of the words of a file, one a line, of 64 bytes at most: each by a call of its
 * own, or with a third argument all by one call. bench/calls counts the instructions of these calls, by callgrind. */
#include "hyphenation.h"
#include <stdio.h>
#include <stdlib.h>
#include <valgrind/callgrind.h>

static uint8_t *content(const char *path, size_t *length) {
  FILE *file = fopen(path, "rb");
  if (!file || fseek(file, 0, SEEK_END)) exit(2);
  *length = (size_t)ftell(file);
  rewind(file);
  uint8_t *bytes = malloc(*length + 1);
  if (!bytes || fread(bytes, 1, *length, file) != *length || fclose(file)) exit(2);
  return bytes;
}

int main(int argc, char **argv) {
  if (argc < 3) return 2;
  size_t length, size, line, count, all = 0, used = 0, words = 0, stops, places[64];
  uint32_t cause, status = HYPHENATION_DONE;
  uint8_t *dictionary = content(argv[1], &length), *text = content(argv[2], &size);
  hyphenation h = HYPHENATION_NONE;
  if (hyphenation_load(hyphenation_kind_of(dictionary, length), dictionary, length, &h, &line, &cause)) return 3;
  size_t *ends = malloc((size + 1) * sizeof *ends), *found = malloc((size + 1) * sizeof *found);
  size_t *place_ends = malloc((size + 1) * sizeof *place_ends);
  if (!ends || !found || !place_ends) return 2;
  for (size_t i = 0; i < size; i++) {
    if (text[i] == '\n')
      ends[words++] = used;
    else
      text[used++] = text[i];
  }
  CALLGRIND_START_INSTRUMENTATION;
  CALLGRIND_TOGGLE_COLLECT;
  if (argc > 3)
    status = hyphenation_breaks_of_words(&h, text, used, ends, words, found, size, &all, place_ends, words, &stops);
  else
    for (size_t i = 0, begin = 0; i < words && status == HYPHENATION_DONE; begin = ends[i++]) {
      status = hyphenation_breaks(&h, text + begin, ends[i] - begin, places, 64, &count);
      all += count;
    }
  CALLGRIND_TOGGLE_COLLECT;
  CALLGRIND_STOP_INSTRUMENTATION;
  if (status != HYPHENATION_DONE) return 4;
  printf("%zu words of %zu bytes, %zu breaks\n", words, used, all);
  hyphenation_free(&h);
  return 0;
}
