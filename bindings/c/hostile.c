/* Hostile bytes through the calls that load: each file that is named with one byte removed, doubled or changed, and cut
 * at each place; random bytes; and a text of a million lines. Each is loaded, or refused with a line of the text or the
 * one after it. */
#include "hyphenation.h"
#include <assert.h>
#include <stdio.h>
#include <stdlib.h>
#include <string.h>
#undef NDEBUG

static long loaded, refused;

static void load(const uint8_t *text, size_t length) {
  size_t lines = 1, line, count, places[64];
  uint32_t cause;
  for (size_t i = 0; i < length; i++) lines += text[i] == '\n';
  for (uint32_t way = 0; way < 4; way++) {
    hyphenation h = HYPHENATION_NONE;
    line = 0, cause = 0;
    uint32_t status =
        way < 2 ? hyphenation_load(way, text, length, &h, &line, &cause)
                : hyphenation_load_dic(way - 2, (const uint8_t *)"und", 3, 256, 256, text, length, &h, &line, &cause);
    assert(status == HYPHENATION_DONE || status == HYPHENATION_REFUSED);
    if (status == HYPHENATION_DONE) {
      loaded++;
      assert(h.held && line == 0 && cause == 0);
      assert(hyphenation_breaks(&h, (const uint8_t *)"asszonnyalfirkin", 16, places, 64, &count) == HYPHENATION_DONE);
    } else {
      refused++;
      assert(!h.held && line >= 1 && line <= lines + 1 && *hyphenation_cause_message(cause));
    }
    hyphenation_free(&h);
    hyphenation_free(&h);
  }
}

static void damage(const char *path) {
  static const uint8_t others[] = {0, '\n', '\r', ' ', '9', '.', '\\', 'z', 0x80, 0xff};
  static uint8_t text[1 << 12], copy[1 << 12];
  FILE *file = fopen(path, "rb");
  assert(file);
  size_t length = fread(text, 1, sizeof text - 1, file);
  fclose(file);
  for (size_t at = 0; at < length; at++) {
    load(text, at);
    memcpy(copy, text, length);
    memmove(copy + at, copy + at + 1, length - at - 1);
    load(copy, length - 1);
    memcpy(copy, text, length);
    memmove(copy + at + 1, copy + at, length - at);
    load(copy, length + 1);
    for (size_t n = 0; n < sizeof others; n++) {
      memcpy(copy, text, length);
      copy[at] = others[n];
      load(copy, length);
    }
  }
}

int main(int argc, char **argv) {
  for (int n = 1; n < argc; n++) damage(argv[n]);
  static uint8_t random[300];
  uint64_t state = 1;
  for (int n = 0; n < 20000; n++) {
    size_t length = (size_t)(n % 300);
    for (size_t i = 0; i < length; i++) {
      state = state * 6364136223846793005u + 1442695040888963407u;
      random[i] = (uint8_t)(state >> 56);
    }
    load(random, length);
  }
  printf("%ld loaded, %ld refused\n", loaded, refused);

  static const char head[] = "hyphenation 1 standard\nlanguage en\nminima 2 3\n";
  size_t length = sizeof head - 1, line, count;
  uint8_t *text = malloc(length + 1000000 * 12);
  assert(text);
  memcpy(text, head, length);
  for (int n = 0; n < 1000000; n++) {
    char word[16];
    int size = snprintf(word, sizeof word, "p %c%c%c%c%c1\n", 'a' + n % 26, 'a' + n / 26 % 26, 'a' + n / 676 % 26,
                        'a' + n / 17576 % 26, 'a' + n / 456976);
    memcpy(text + length, word, (size_t)size);
    length += (size_t)size;
  }
  hyphenation h = HYPHENATION_NONE;
  uint32_t cause;
  assert(hyphenation_load(0, text, length, &h, &line, &cause) == HYPHENATION_DONE);
  assert(hyphenation_write(&h, text, 0, &count) == HYPHENATION_NO_ROOM && count == length);
  hyphenation_free(&h);
  free(text);
  puts("a million lines loaded");
  return 0;
}
