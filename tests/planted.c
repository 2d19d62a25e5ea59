/* Faults that tests/fuzz --planted puts between bindings/c/round_trips.c and the library, one at a time: PLANTED is the
 * number of one. Each breaks a round trip, and so it must be found. (Linked by --wrap=.) */
#include "../bindings/c/hyphenation.h"
#include <string.h>

#if PLANTED == 1
/* A dictionary is written without its last line, if that is an exception. */
hyphenation_status __real_hyphenation_write(const hyphenation *, uint8_t *, size_t, size_t *);
hyphenation_status __wrap_hyphenation_write(const hyphenation *h, uint8_t *buffer, size_t capacity, size_t *count) {
  hyphenation_status status = __real_hyphenation_write(h, buffer, capacity, count);
  if (status) return status;
  size_t begin = *count - 1;
  while (buffer[begin - 1] != '\n') begin--;
  if (buffer[begin] == 'e') *count = begin;
  return status;
}
#elif PLANTED == 2 || PLANTED == 3
/* 2: no exception is removed. 3: an exception is added without its last break. */
hyphenation_status __real_hyphenation_edit(hyphenation *, const uint8_t *, size_t);
hyphenation_status __wrap_hyphenation_edit(hyphenation *h, const uint8_t *edit, size_t length) {
  if (PLANTED == 2 && *edit == '-') return HYPHENATION_DONE;
  if (PLANTED == 3 && *edit == '+' && memchr(edit, ' ', length))
    while (edit[--length] != ' ') continue;
  return __real_hyphenation_edit(h, edit, length);
}
#elif PLANTED == 4
/* A text ends with its last mark. */
hyphenation_status __real_hyphenation_text(const hyphenation *, const uint8_t *, size_t, const uint8_t *, size_t, uint8_t *,
                                           size_t, size_t *);
hyphenation_status __wrap_hyphenation_text(const hyphenation *h, const uint8_t *text, size_t length, const uint8_t *mark,
                                           size_t mark_length, uint8_t *buffer, size_t capacity, size_t *count) {
  hyphenation_status status = __real_hyphenation_text(h, text, length, mark, mark_length, buffer, capacity, count);
  if (!status && *count > length)
    while (buffer[*count - 1] != *mark) --*count;
  return status;
}
#elif PLANTED == 5
/* A break of a short word is left out by the dictionary that was read again: every second call. */
hyphenation_status __real_hyphenation_scores(const hyphenation *, const uint8_t *, size_t, hyphenation_numbered *, size_t,
                                             size_t *, uint8_t *, size_t, size_t *);
hyphenation_status __wrap_hyphenation_scores(const hyphenation *h, const uint8_t *word, size_t length,
                                             hyphenation_numbered *changes, size_t capacity, size_t *count, uint8_t *texts,
                                             size_t texts_capacity, size_t *texts_count) {
  static unsigned calls;
  hyphenation_status status =
      __real_hyphenation_scores(h, word, length, changes, capacity, count, texts, texts_capacity, texts_count);
  for (size_t i = 0; !status && calls % 2 && i < *count; i++) changes[i].left = 0;
  calls++;
  return status;
}
#endif
