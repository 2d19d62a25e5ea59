/* This library, as C calls it. */
#include "hyphenation.h"
#include "peer.h"

static hyphenation handle = HYPHENATION_NONE;

static void load(const char *path) {
  size_t length, line;
  uint32_t cause;
  char *text = read_file(path, &length);
  const uint8_t *bytes = (const uint8_t *)text;
  if (hyphenation_load(hyphenation_kind_of(bytes, length), bytes, length, &handle, &line, &cause) != HYPHENATION_DONE)
    die("the dictionary was not loaded");
  free(text);
}

static size_t breaks_of_word(const char *word, size_t length) {
  size_t places[128], count;
  if (hyphenation_breaks(&handle, (const uint8_t *)word, length, places, 128, &count) != HYPHENATION_DONE)
    die("a word was refused");
  return count;
}

static size_t breaks_of_text(const char *text, size_t length, char *marked) {
  size_t count, room = 2 * length + 64;
  const uint8_t *bytes = (const uint8_t *)text, *mark = (const uint8_t *)"-";
  if (hyphenation_text(&handle, bytes, length, mark, 1, (uint8_t *)marked, room, &count) != HYPHENATION_DONE)
    die("the text was refused");
  return count - length;
}

int main(int argc, char **argv) { return go_through(argc, argv); }
