/* A target of libFuzzer: byte 1 chooses the kind and the call that loads, the bytes up to the first zero are loaded, and
 * the rest is the word and the text that the dictionary is asked for. tests/fuzz builds and runs it. */
#include "hyphenation.h"
#include <stdlib.h>
#include <string.h>

#define ROOM 4096

static void need(int good) {
  if (!good) abort();
}

/* Whether a status is one of those that a loaded dictionary returns. */
static int is_known(uint32_t status) {
  return status == HYPHENATION_DONE || status == HYPHENATION_NO_ROOM || status == HYPHENATION_NOT_UTF8 ||
         status == HYPHENATION_OTHER_KIND || status == HYPHENATION_OUT_OF_MEMORY;
}

int LLVMFuzzerTestOneInput(const uint8_t *data, size_t size) {
  static uint8_t page[ROOM], again[ROOM];
  static size_t places[ROOM], list[2 * ROOM];
  static hyphenation_change changes[ROOM];
  static hyphenation_numbered numbered[ROOM];
  if (size < 2) return 0;
  uint32_t kind = data[0] & 1, cause = 0, status;
  const uint8_t *text = data + 1, *word = memchr(text, 0, size - 1);
  size_t length = word ? (size_t)(word - text) : size - 1, rest = word ? size - 2 - length : 0;
  word = word ? word + 1 : text;
  hyphenation h = HYPHENATION_NONE, o = HYPHENATION_NONE;
  size_t line = 0, count = 0, texts;
  if (data[0] & 4) {
    hyphenation_fault fault = {0, 0, 0};
    hyphenation_patterns files = {.kind = kind,
                                  .form = data[0] >> 1 & 1,
                                  .language = (const uint8_t *)"und",
                                  .language_length = 3,
                                  .left = 2,
                                  .right = 256 - (data[0] >> 3 & 1),
                                  .patterns = text,
                                  .patterns_length = length,
                                  .exceptions = word ? word : text,
                                  .exceptions_length = word ? rest : 0};
    status = hyphenation_load_patterns(&files, &h, &fault);
    need(status != HYPHENATION_REFUSED || fault.file < 2);
    line = fault.line, cause = fault.cause;
  } else if (data[0] & 2)
    status = hyphenation_load_dic(kind, (const uint8_t *)"und", 3, 256, 256, text, length, &h, &line, &cause);
  else
    status = hyphenation_load(kind, text, length, &h, &line, &cause);
  if (status == HYPHENATION_REFUSED) need(line > 0 && *hyphenation_cause_message(cause) && !h.held);
  if (status != HYPHENATION_DONE) return 0;
  status = hyphenation_breaks(&h, word, rest, places, ROOM, &count);
  need(is_known(status));
  for (size_t i = 0; status == HYPHENATION_DONE && i < count; i++) need(places[i] <= rest && (!i || places[i - 1] < places[i]));
  /* A word as its NFC has breaks on boundaries of characters, and a word of ASCII has its own. */
  size_t own = count, high = 0;
  uint32_t composed = hyphenation_composed_breaks(&h, word, rest, list, ROOM, &count);
  need(is_known(composed));
  for (size_t i = 0; composed == HYPHENATION_DONE && i < count; i++)
    need(list[i] <= rest && (!i || list[i - 1] < list[i]) && (list[i] == rest || (word[list[i]] & 0xc0) != 0x80));
  for (size_t i = 0; i < rest; i++) high |= word[i] & 0x80;
  need(high || (composed == status && count == own && (status != HYPHENATION_DONE || !memcmp(list, places, own * sizeof *list))));
  count = own;
  /* A list of the word and an empty one has the word's breaks. A third word that ends before it begins is refused. */
  size_t ends[3] = {rest, rest, 0}, found_ends[3], found;
  uint32_t listed = hyphenation_breaks_of_words(&h, word, rest, ends, 2, list, 2 * ROOM, &found, found_ends, 3, &texts);
  need(listed == (status == HYPHENATION_NO_ROOM ? HYPHENATION_DONE : status));
  if (listed == HYPHENATION_DONE)
    need(texts == 2 && found == count && found_ends[0] == count && found_ends[1] == count);
  if (status == HYPHENATION_DONE) need(!memcmp(list, places, count * sizeof *list));
  listed = hyphenation_breaks_of_words(&h, word, rest, ends, 3, list, 2 * ROOM, &found, found_ends, 3, &texts);
  need(listed == (!rest ? HYPHENATION_DONE : status == HYPHENATION_NOT_UTF8 ? status : HYPHENATION_BAD_ENDS));
  need(is_known(hyphenation_values(&h, word, rest, page, ROOM, &count)));
  need(is_known(hyphenation_changes(&h, word, rest, changes, ROOM, &count, page, ROOM, &texts)));
  /* The scores have the values, and an exception is one as it is listed. */
  uint32_t scored = hyphenation_scores(&h, word, rest, numbered, ROOM, &count, page, ROOM, &texts);
  need(is_known(scored));
  if (scored == HYPHENATION_DONE) {
    need(hyphenation_values(&h, word, rest, again, ROOM, &found) == HYPHENATION_DONE && found == count);
    for (size_t i = 0; i < count; i++) need(numbered[i].number == again[i] && numbered[i].changed <= kind);
  }
  status = hyphenation_exception(&h, word, rest, numbered, ROOM, &count, page, ROOM, &texts);
  need(is_known(status) || status == HYPHENATION_NO_EXCEPTION);
  for (size_t i = 0; status == HYPHENATION_DONE && i < count; i++)
    need(numbered[i].number <= rest && numbered[i].left <= numbered[i].number && numbered[i].breakpoint <= numbered[i].length);
  need(is_known(hyphenation_text(&h, word, rest, (const uint8_t *)"-", 1, page, ROOM, &count)));
  need(is_known(hyphenation_fill(&h, word, rest, 8, page, ROOM, &count)));
  /* With a pattern that no word has, whose value is so far before the end of its key that no table is made, the values and
   * the marked text are the same. */
  static const char far_line[] = "p 1qjxzqjxzqjxzqjxzq\n";
  if (hyphenation_write(&h, page, ROOM - sizeof far_line, &count) == HYPHENATION_DONE) {
    memcpy(page + count, far_line, sizeof far_line - 1);
    need(hyphenation_load(kind, page, count + sizeof far_line - 1, &o, &line, &cause) == HYPHENATION_DONE);
    uint32_t valued = hyphenation_values(&o, word, rest, page, ROOM, &count);
    need(hyphenation_values(&h, word, rest, again, ROOM, &texts) == valued);
    need(valued != HYPHENATION_DONE || (texts == count && !memcmp(page, again, count)));
    uint32_t marked = hyphenation_text(&o, word, rest, (const uint8_t *)"-", 1, page, ROOM, &count);
    need(hyphenation_text(&h, word, rest, (const uint8_t *)"-", 1, again, ROOM, &texts) == marked);
    need(marked != HYPHENATION_DONE || (texts == count && !memcmp(page, again, count)));
  }
  need(hyphenation_share(&h, &o) == HYPHENATION_DONE);
  status = hyphenation_edit(&o, word, rest);
  need(status == HYPHENATION_REFUSED || is_known(status));
  status = hyphenation_add_exceptions(&o, word, rest, &line, &cause);
  need(status == HYPHENATION_REFUSED || status == HYPHENATION_DONE || status == HYPHENATION_OUT_OF_MEMORY);
  size_t left, right;
  uint8_t least = (uint8_t)rest;
  status = hyphenation_raise_minima(&o, least, least / 2);
  need(status == HYPHENATION_DONE || status == HYPHENATION_OUT_OF_MEMORY);
  need(hyphenation_minima(&o, &left, &right) == HYPHENATION_DONE);
  need(status != HYPHENATION_DONE || (left >= least && right >= least / 2u));
  /* The canonical text is accepted, and is its own canonical text. */
  if (hyphenation_write(&h, page, ROOM, &count) == HYPHENATION_DONE) {
    need(hyphenation_load(kind, page, count, &o, &line, &cause) == HYPHENATION_DONE);
    need(hyphenation_write(&o, again, ROOM, &texts) == HYPHENATION_DONE && texts == count && !memcmp(page, again, count));
  }
  hyphenation_free(&h);
  hyphenation_free(&o);
  return 0;
}
