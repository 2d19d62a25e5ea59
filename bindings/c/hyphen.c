/* The calls of libhyphen over hyphenation.h. */
#define _GNU_SOURCE
#include "hyphen.h"
#include "hyphenation.h"
#include <pthread.h>
#include <stdlib.h>
#include <string.h>
#include <sys/mman.h>

/* The dictionary, and what of it the caller does not see: a .dic, or else a text of this library. Calls of several
 * threads wait for one another. */
struct own {
  HyphenDict seen;
  hyphenation_levels levels;
  hyphenation text;
  size_t left, right; /* the minima of the text */
  bool is_text;
  pthread_mutex_t lock;
};

/* Each call of malloc in this library, also those of the proved calls: the Makefile links it so. The tables of a large .dic
 * are read at places all over, and in small pages the processor has to look for the addresses of most. So a large block
 * lies in large pages where the system has them. */
enum { LARGE_PAGE = 1 << 21 };
void *__real_malloc(size_t size);
void *__wrap_malloc(size_t size);
void *__wrap_malloc(size_t size) {
  void *block;
  if (size < LARGE_PAGE) return __real_malloc(size);
  if (posix_memalign(&block, LARGE_PAGE, size) != 0) return NULL;
#ifdef MADV_HUGEPAGE
  madvise(block, size, MADV_HUGEPAGE);
#endif
  return block;
}

/* The lists of changes, which are the caller's. */
struct lists {
  char ***rep;
  int **pos;
  int **cut;
};

static uint8_t *read_all(FILE *file, size_t *length) {
  size_t room = 1 << 16, more;
  uint8_t *bytes = malloc(room), *larger = bytes;
  *length = 0;
  while (larger && (more = fread(bytes + *length, 1, room - *length, file)) > 0) {
    *length += more;
    if (*length < room) continue;
    larger = realloc(bytes, room *= 2);
    if (larger) bytes = larger;
  }
  if (larger && !ferror(file)) return bytes;
  free(bytes);
  return NULL;
}

static uint32_t load(struct own *own, const uint8_t *bytes, size_t length) {
  hyphenation_levels_head head;
  HyphenDict *seen = &own->seen;
  size_t line;
  uint32_t cause;
  if (length > 12 && memcmp(bytes, "hyphenation ", 12) == 0) {
    strcpy(seen->cset, "UTF-8");
    seen->utf8 = 1;
    own->is_text = true;
    uint32_t status = hyphenation_load(hyphenation_kind_of(bytes, length), bytes, length, &own->text, &line, &cause);
    return status == HYPHENATION_DONE ? hyphenation_minima(&own->text, &own->left, &own->right) : status;
  }
  uint32_t status = hyphenation_levels_load(bytes, length, &own->levels, &head);
  if (status != HYPHENATION_DONE) return status;
  memcpy(seen->cset, head.charset, MAX_NAME);
  seen->utf8 = head.utf8;
  seen->lhmin = (char)head.left;
  seen->rhmin = (char)head.right;
  seen->clhmin = (char)head.compound_left;
  seen->crhmin = (char)head.compound_right;
  return status;
}

HyphenDict *hnj_hyphen_load_file(FILE *file) {
  size_t length;
  uint8_t *bytes = read_all(file, &length);
  struct own *own = bytes ? calloc(1, sizeof *own) : NULL;
  if (own && (load(own, bytes, length) != HYPHENATION_DONE || pthread_mutex_init(&own->lock, NULL) != 0)) {
    hyphenation_levels_free(&own->levels);
    hyphenation_free(&own->text);
    free(own);
    own = NULL;
  }
  free(bytes);
  return own ? &own->seen : NULL;
}

HyphenDict *hnj_hyphen_load(const char *path) {
  FILE *file = fopen(path, "rb");
  if (!file) return NULL;
  HyphenDict *dict = hnj_hyphen_load_file(file);
  fclose(file);
  return dict;
}

void hnj_hyphen_free(HyphenDict *dict) {
  struct own *own = (struct own *)dict;
  if (!own) return;
  hyphenation_levels_free(&own->levels);
  hyphenation_free(&own->text);
  pthread_mutex_destroy(&own->lock);
  free(own);
}

/* Makes the lists that are not there yet, for a word of that many bytes. */
static bool make(const struct lists *to, size_t size) {
  if (!*to->rep) *to->rep = calloc(size + 1, sizeof **to->rep);
  if (!*to->pos) *to->pos = calloc(size + 1, sizeof **to->pos);
  if (!*to->cut) *to->cut = calloc(size + 1, sizeof **to->cut);
  return *to->rep && *to->pos && *to->cut;
}

/* Writes the change of a character into the lists; the text is NULL if memory was short. */
static bool put(const struct lists *to, size_t character, size_t pos, size_t cut, char *text) {
  if (!text) return false;
  (*to->rep)[character] = text;
  (*to->pos)[character] = (int)pos;
  (*to->cut)[character] = (int)cut;
  return true;
}

/* Hyphenates by a .dic. A word with many changes is asked for twice, the second time with room for all of them. A
 * written word that is too long is empty. */
static bool by_levels(struct own *own, bool given, const hyphenation_levels_minima *minima, const char *word,
                      size_t size, char *hyphens, char *hyphenated_word, const struct lists *to) {
  enum { CHANGES = 8, TEXTS = 128 };
  hyphenation_levels_change few[CHANGES], *changes = few;
  uint8_t short_texts[TEXTS], *texts = short_texts;
  const uint8_t *text = (const uint8_t *)word;
  size_t length = word[size] ? size + strlen(word + size) : size, changes_room = CHANGES, texts_room = TEXTS;
  size_t count, changes_count, texts_count, written, written_room = size > 0 ? 2 * size - 1 : 0;
  uint32_t status;
  hyphenation_status told = HYPHENATION_DONE;
  bool made;
  for (;;) {
    pthread_mutex_lock(&own->lock);
    if (hyphenated_word)
      status = hyphenation_levels_both(&own->levels, given, minima, text, length, size, (uint8_t *)hyphens, size, &count,
                                       changes, changes_room, &changes_count, texts, texts_room, &texts_count, &made,
                                       (uint8_t *)hyphenated_word, written_room, &written, &told);
    else
      status = hyphenation_levels_word(&own->levels, given, minima, text, length, size, (uint8_t *)hyphens, size, &count,
                                       changes, changes_room, &changes_count, texts, texts_room, &texts_count, &made);
    pthread_mutex_unlock(&own->lock);
    if (status != HYPHENATION_NO_ROOM || changes != few) break;
    changes = malloc((changes_room = changes_count + 1) * sizeof *changes);
    texts = malloc(texts_room = texts_count + 1);
    if (!changes || !texts) break;
  }
  bool done = status == HYPHENATION_DONE;
  if (done) hyphens[count] = 0;
  if (done && made && to->rep && to->pos && to->cut) {
    done = make(to, size);
    const char *at = (const char *)texts;
    for (size_t n = 0; n < changes_count && done; at += changes[n++].length + 1)
      done = put(to, changes[n].character, changes[n].pos, changes[n].cut, strdup(at));
  }
  if (changes != few) {
    free(changes);
    free(texts);
  }
  if (done && hyphenated_word) hyphenated_word[told == HYPHENATION_DONE ? written : 0] = 0;
  return done && (told == HYPHENATION_DONE || told == HYPHENATION_NO_ROOM);
}

/* How many characters some bytes of UTF-8 begin. */
static size_t characters(const char *bytes, size_t length) {
  size_t count = 0;
  for (size_t i = 0; i < length; i++) count += ((unsigned char)bytes[i] >> 6) != 2;
  return count;
}

/* Appends bytes and a text to `made` bytes, and returns how many bytes there are then: `room` or more, if the room is
 * too short for them and a NUL. */
static size_t append(char *out, size_t room, size_t made, const char *bytes, size_t length, const char *text) {
  if (made >= room) return made;
  return made + (size_t)snprintf(out + made, room - made, "%.*s%s", (int)length, bytes, text);
}

/* The bytes of a hyphen, a dash or an apostrophe that is at a place of a word; 0 if none does. */
static size_t dash_at(const char *word, size_t size, size_t at) {
  if (word[at] == '-' || word[at] == '\'') return 1;
  if (size - at < 3 || memcmp(word + at, "\xE2\x80", 2) != 0) return 0;
  return word[at + 2] == '\x93' || word[at + 2] == '\x99' ? 3 : 0;
}

/* Whether a place of a compound has too few letters between it and a dash. LibreOffice passes a compound with dashes in
 * one piece, and breaks it at these itself. */
static bool near_dash(const struct own *own, const char *word, size_t size, size_t place) {
  size_t begin = 0, end = size;
  for (size_t at = 0; at < size && end == size; at++) {
    size_t dash = dash_at(word, size, at);
    if (dash && at < place) begin = at + dash;
    if (dash && at >= place) end = at;
  }
  return begin > place || (begin > 0 && characters(word + begin, place - begin) < own->left) ||
         (end < size && characters(word + place, end - place) < own->right);
}

/* Hyphenates by a text of this library. Changes that the caller has no lists for are left out. */
static bool by_text(struct own *own, int left, int right, const char *word, size_t size, char *hyphens,
                    char *hyphenated_word, const struct lists *to) {
  hyphenation_change *changes = NULL;
  char *texts = NULL;
  size_t count = 0, texts_count = 0, all = characters(word, size), last = 0, room = 2 * size;
  size_t written = hyphenated_word ? 0 : room;
  uint32_t status = HYPHENATION_NO_ROOM;
  while (status == HYPHENATION_NO_ROOM) {
    size_t changes_room = count, texts_room = texts_count;
    free(changes);
    free(texts);
    changes = malloc((changes_room + 1) * sizeof *changes);
    texts = malloc(texts_room + 1);
    if (!changes || !texts) break;
    pthread_mutex_lock(&own->lock);
    status = hyphenation_changes(&own->text, (const uint8_t *)word, size, changes, changes_room, &count,
                                 (uint8_t *)texts, texts_room, &texts_count);
    pthread_mutex_unlock(&own->lock);
  }
  bool done = status == HYPHENATION_DONE;
  if (done) {
    memset(hyphens, '0', all);
    hyphens[all] = 0;
  }
  const char *next = texts;
  for (const hyphenation_change *b = changes; done && b < changes + count; b++) {
    const char *before = next, *after = before + b->before;
    size_t place = characters(word, b->place), begin = characters(word, b->begin), end = characters(word, b->end);
    bool changed = b->before || b->after || b->begin < b->end;
    char *text = NULL;
    next = after + b->after;
    if (place < 1 || (long)place < left || (long)(all - place) < right) continue;
    if (near_dash(own, word, size, b->place)) continue;
    if (changed && !(to->rep && to->pos && to->cut)) continue;
    if (changed)
      done = make(to, size) && asprintf(&text, "%.*s=%.*s", (int)b->before, before, (int)b->after, after) >= 0 &&
             put(to, place - 1, place - begin, end - begin, text);
    if (!done) break;
    hyphens[place - 1] = '1';
    /* A change that begins before the end of another one can't be written. */
    if (b->begin < last) written = room;
    written = append(hyphenated_word, room, written, word + last, b->begin - last, text ? text : "=");
    last = b->end;
  }
  free(changes);
  free(texts);
  if (!done || !hyphenated_word) return done;
  if (append(hyphenated_word, room, written, word + last, size - last, "") >= room) hyphenated_word[0] = 0;
  return true;
}

static int hyphenate(HyphenDict *dict, bool given, const hyphenation_levels_minima *minima, const char *word,
                     int word_size, char *hyphens, char *hyphenated_word, const struct lists *to) {
  struct own *own = (struct own *)dict;
  size_t size = (size_t)word_size;
  bool done = own->is_text ? by_text(own, minima->left, minima->right, word, size, hyphens, hyphenated_word, to)
                             : by_levels(own, given, minima, word, size, hyphens, hyphenated_word, to);
  return !done;
}

int hnj_hyphen_hyphenate3(HyphenDict *dict, const char *word, int word_size, char *hyphens, char *hyphenated_word,
                          char ***rep, int **pos, int **cut, int lhmin, int rhmin, int clhmin, int crhmin) {
  const hyphenation_levels_minima minima = {lhmin, rhmin, clhmin, crhmin};
  const struct lists to = {rep, pos, cut};
  return hyphenate(dict, true, &minima, word, word_size, hyphens, hyphenated_word, &to);
}

int hnj_hyphen_hyphenate2(HyphenDict *dict, const char *word, int word_size, char *hyphens, char *hyphenated_word,
                          char ***rep, int **pos, int **cut) {
  static const hyphenation_levels_minima none = {0, 0, 0, 0};
  const struct lists to = {rep, pos, cut};
  return hyphenate(dict, false, &none, word, word_size, hyphens, hyphenated_word, &to);
}

int hnj_hyphen_hyphenate(HyphenDict *dict, const char *word, int word_size, char *hyphens) {
  struct own *own = (struct own *)dict;
  size_t count;
  if (own->is_text) return hnj_hyphen_hyphenate2(dict, word, word_size, hyphens, NULL, NULL, NULL, NULL);
  pthread_mutex_lock(&own->lock);
  uint32_t status = hyphenation_levels_digits(&own->levels, (const uint8_t *)word, (size_t)word_size,
                                              (uint8_t *)hyphens, (size_t)word_size, &count);
  pthread_mutex_unlock(&own->lock);
  if (status != HYPHENATION_DONE) return 1;
  hyphens[count] = 0;
  return 0;
}
