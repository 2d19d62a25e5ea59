/* A target of libFuzzer: the bytes choose a dictionary, words and a text of few letters, and what is done can be undone.
 *
 * - A dictionary that is written as its text and loaded again writes the same text, and finds the same in each word. So does
 *   one with a further pattern, by which no table is made.
 * - An exception that is added has the breaks that it was given, and its removal gives the text from before. An exception
 *   that is removed and added as it was listed does so, too.
 * - The segments of a word of a standard dictionary, joined, are the word, and a text without its marks is the text.
 *
 * The bytes give a text that is accepted, except for a pattern or an exception in two lines. How often each of these was done
 * is written at the end. tests/fuzz builds and runs it, and wants each of them. */
#include "hyphenation.h"
#include <stdio.h>
#include <stdlib.h>
#include <string.h>

#define ROOM (1 << 16)
#define MOST 256
#define MARK "\x01"

/* What was done, and how often. */
static struct {
  const char *name;
  unsigned long number;
} done[] = {{"texts written and read again", 0}, {"words of these with breaks", 0}, {"exceptions added and removed", 0},
            {"exceptions removed and added", 0}, {"words joined of segments", 0},   {"texts with marks removed", 0},
            {"breaks with a change", 0}};
enum { WRITTEN, ASKED, ADDED, REMOVED, JOINED, UNMARKED, CHANGED };

static void tell(void) {
  for (size_t i = 0; i < sizeof done / sizeof *done; i++) fprintf(stderr, "done: %s: %lu\n", done[i].name, done[i].number);
}

static void need(int good, const char *what) {
  if (good) return;
  fprintf(stderr, "broken: %s\n", what);
  abort();
}
#define NEED(fact) need(fact, #fact)

/* ---- The bytes, and what is made of them. */

static const uint8_t *at, *end;
static unsigned next(unsigned below) { return at < end ? *at++ % below : 0; }

typedef struct text {
  uint8_t bytes[ROOM];
  size_t length;
} text;

static void put(text *t, const void *bytes, size_t length) {
  NEED(t->length + length <= ROOM);
  memcpy(t->bytes + t->length, bytes, length);
  t->length += length;
}
static void put_text(text *t, const char *words) { put(t, words, strlen(words)); }
static void put_number(text *t, size_t number) {
  char digits[24];
  put(t, digits, (size_t)snprintf(digits, sizeof digits, "%zu", number));
}

/* The letters, of one to four bytes, and each as a dictionary text has it. A place between two of them is a character
 * boundary. */
static const char *const letters[] = {"a", "b", "c", "é", "ß", "ы", "\xf0\x9d\x94\x9e", " ", "\\", "0", "{"};
static const char *const written[] = {"a", "b", "c", "é", "ß", "ы", "\xf0\x9d\x94\x9e", "\\s", "\\\\", "\\0", "\\{"};
#define LETTERS 11

/* A word: its bytes, and its places from 0 to its length. */
typedef struct word {
  uint8_t letters[16];
  size_t count, places[17];
} word;

static word some_word(unsigned most) {
  word w = {.count = next(most + 1)};
  for (size_t i = 0; i < w.count; i++) {
    unsigned letter = next(16);
    w.letters[i] = letter < LETTERS ? letter : letter % 3;
    w.places[i + 1] = w.places[i] + strlen(letters[w.letters[i]]);
  }
  return w;
}
static void put_word(text *t, const word *w) {
  for (size_t i = 0; i < w->count; i++) put_text(t, letters[w->letters[i]]);
}
/* The token of a letter: digits and braces are letters in patterns only by an escape, and elsewhere as they are. */
static void put_token(text *t, unsigned letter, bool in_pattern) {
  put_text(t, letter < 9 || in_pattern ? written[letter] : letters[letter]);
}
static void put_tokens(text *t, const word *w) {
  if (!w->count) put_text(t, "\\e");
  for (size_t i = 0; i < w->count; i++) put_token(t, w->letters[i], false);
}

/* A change at a place of a word: its range has its ends at places of the word. */
static void put_change(text *t, const word *w, size_t place) {
  size_t begin = w->places[next((unsigned)place + 1)], stop = w->places[place + next((unsigned)(w->count - place) + 1)];
  word substitution = some_word(3);
  size_t breakpoint = substitution.places[next((unsigned)substitution.count + 1)];
  size_t numbers[4] = {w->places[place], w->places[place] - begin, stop - w->places[place], breakpoint};
  for (int i = 0; i < 4; i++) {
    put_number(t, numbers[i]);
    put_text(t, ",");
  }
  put_tokens(t, &substitution);
}

static void put_pattern(text *t, bool extended) {
  word key = some_word(5);
  if (!key.count) return;
  /* A dot has a byte, and is before the letters. */
  unsigned values[7], dot = next(4) == 0;
  put_text(t, dot ? "p ." : "p ");
  for (size_t i = 0; i <= key.count; i++) {
    values[i] = next(3) ? next(256) : 0;
    if (values[i] > 9) {
      put_text(t, "{");
      put_number(t, values[i]);
      put_text(t, "}");
    } else if (values[i]) {
      put_number(t, values[i]);
    }
    if (i < key.count) put_token(t, key.letters[i], true);
  }
  word framed = key;
  for (size_t i = 0; i <= key.count; i++) framed.places[i] += dot;
  for (size_t i = 0; extended && i <= key.count; i++) {
    if (!values[i] || next(2)) continue;
    put_text(t, " ");
    put_change(t, &framed, i);
  }
  put_text(t, "\n");
}

static void put_listed(text *t, const word *w, bool extended) {
  put_tokens(t, w);
  for (size_t i = 0; i <= w->count; i++) {
    if (next(3)) continue;
    put_text(t, " ");
    if (extended && next(2)) put_change(t, w, i);
    else put_number(t, w->places[i]);
  }
}

static void put_dictionary(text *t, bool extended) {
  put_text(t, extended ? "hyphenation 2 extended\nlanguage x-y\nminima " : "hyphenation 2 standard\nlanguage x-y\nminima ");
  put_number(t, next(3));
  put_text(t, " ");
  put_number(t, next(3));
  put_text(t, "\n");
  for (unsigned n = next(12); n > 0; n--) put_pattern(t, extended);
  for (unsigned n = next(5); n > 0; n--) {
    word w = some_word(6);
    put_text(t, "e ");
    put_listed(t, &w, extended);
    put_text(t, "\n");
  }
}

/* ---- What a dictionary says. */

static void write_text(const hyphenation *h, text *t) {
  NEED(hyphenation_write(h, t->bytes, ROOM, &t->length) == HYPHENATION_DONE);
}
static bool same(const text *a, const text *b) { return a->length == b->length && !memcmp(a->bytes, b->bytes, a->length); }

/* The values, the listed breaks and the breaks of a word. */
typedef struct answer {
  size_t places[MOST], count, numbered_count[2], changes_count;
  hyphenation_numbered numbered[2][MOST];
  hyphenation_change changes[MOST];
  text texts[3];
  uint32_t listed;
} answer;

static void ask(const hyphenation *h, const text *w, answer *a) {
  memset(a, 0, offsetof(answer, texts));
  for (int i = 0; i < 3; i++) a->texts[i].length = 0;
  NEED(hyphenation_breaks(h, w->bytes, w->length, a->places, MOST, &a->count) == HYPHENATION_DONE);
  NEED(hyphenation_changes(h, w->bytes, w->length, a->changes, MOST, &a->changes_count, a->texts[0].bytes, ROOM,
                           &a->texts[0].length) == HYPHENATION_DONE);
  NEED(hyphenation_scores(h, w->bytes, w->length, a->numbered[0], MOST, &a->numbered_count[0], a->texts[1].bytes, ROOM,
                          &a->texts[1].length) == HYPHENATION_DONE);
  a->listed = hyphenation_exception(h, w->bytes, w->length, a->numbered[1], MOST, &a->numbered_count[1], a->texts[2].bytes,
                                    ROOM, &a->texts[2].length);
  NEED(a->listed == HYPHENATION_DONE || a->listed == HYPHENATION_NO_EXCEPTION);
  /* The places are those of the changes, and the values those of hyphenation_values. */
  static uint8_t values[MOST];
  size_t count = 0;
  NEED(hyphenation_values(h, w->bytes, w->length, values, MOST, &count) == HYPHENATION_DONE);
  NEED(a->changes_count == a->count && a->numbered_count[0] == count);
  for (size_t i = 0; i < a->count; i++) NEED(a->changes[i].place == a->places[i]);
  for (size_t i = 0; i < count; i++) NEED(a->numbered[0][i].number == values[i]);
}
static bool same_answer(const answer *a, const answer *b) {
  return !memcmp(a, b, offsetof(answer, texts)) && a->listed == b->listed && same(&a->texts[0], &b->texts[0]) &&
         same(&a->texts[1], &b->texts[1]) && same(&a->texts[2], &b->texts[2]);
}

/* The listed breaks of a word, as they are behind it in a dictionary text. */
static void put_answer(text *t, const answer *a) {
  const uint8_t *own = a->texts[2].bytes;
  for (size_t i = 0; i < a->numbered_count[1]; i++) {
    const hyphenation_numbered *it = &a->numbered[1][i];
    put_text(t, " ");
    put_number(t, it->number);
    if (!it->changed) continue;
    size_t numbers[3] = {it->left, it->right, it->breakpoint};
    for (int n = 0; n < 3; n++) {
      put_text(t, ",");
      put_number(t, numbers[n]);
    }
    put_text(t, ",");
    if (!it->length) put_text(t, "\\e");
    for (size_t n = 0; n < it->length; n++) {
      char letter[2] = {(char)own[n], 0};
      put_text(t, own[n] == ' ' ? "\\s" : own[n] == '\\' ? "\\\\" : letter);
    }
    own += it->length;
    done[CHANGED].number++;
  }
}

/* ---- The round trips. */

static text first, again, line, asked, marked, plain;

static void join(const hyphenation *h, const text *w, const answer *a) {
  plain.length = 0;
  size_t before = 0;
  for (size_t i = 0; i <= a->count; i++) {
    size_t place = i < a->count ? a->places[i] : w->length;
    NEED(before <= place && place <= w->length && (!i || i == a->count || before < place));
    put(&plain, w->bytes + before, place - before);
    before = place;
  }
  NEED(same(&plain, w));
  done[JOINED].number += a->count > 0;
  NEED(hyphenation_text(h, w->bytes, w->length, (const uint8_t *)MARK, 1, marked.bytes, ROOM, &marked.length) == 0);
  plain.length = 0;
  for (size_t i = 0; i < marked.length; i++)
    if (marked.bytes[i] != *MARK) put(&plain, marked.bytes + i, 1);
  NEED(same(&plain, w));
  done[UNMARKED].number += marked.length > w->length;
}

static void edit(hyphenation *h, const char *sign, const word *w, const answer *a) {
  line.length = 0;
  put_text(&line, sign);
  put_tokens(&line, w);
  if (a) put_answer(&line, a);
  NEED(hyphenation_edit(h, line.bytes, line.length) == HYPHENATION_DONE);
}

static void add_and_remove(hyphenation *h, const word *w, const answer *before, bool extended) {
  static answer now;
  if (before->listed == HYPHENATION_DONE) {
    edit(h, "-", w, 0);
    ask(h, &asked, &now);
    NEED(now.listed == HYPHENATION_NO_EXCEPTION);
    edit(h, "+", w, before);
    done[REMOVED].number++;
  } else {
    static text expected, listed;
    line.length = expected.length = listed.length = 0;
    put_text(&line, "+");
    put_listed(&line, w, extended);
    NEED(hyphenation_edit(h, line.bytes, line.length) == HYPHENATION_DONE);
    ask(h, &asked, &now);
    NEED(now.listed == HYPHENATION_DONE);
    /* The breaks are those of the edit, token by token. */
    put_text(&expected, "+");
    put_tokens(&expected, w);
    put_answer(&expected, &now);
    NEED(same(&expected, &line));
    edit(h, "-", w, 0);
    done[ADDED].number++;
  }
  ask(h, &asked, &now);
  NEED(same_answer(before, &now));
  write_text(h, &again);
  NEED(same(&first, &again));
}

int LLVMFuzzerInitialize(int *argc, char ***argv) {
  (void)argc, (void)argv;
  atexit(tell);
  return 0;
}

int LLVMFuzzerTestOneInput(const uint8_t *data, size_t size) {
  at = data, end = data + size;
  bool extended = next(2);
  static text made;
  made.length = 0;
  put_dictionary(&made, extended);
  hyphenation h = HYPHENATION_NONE, o = HYPHENATION_NONE;
  size_t at_line = 0;
  uint32_t cause = 0;
  uint32_t status = hyphenation_load(extended, made.bytes, made.length, &h, &at_line, &cause);
  /* 13 and 14: a pattern or an exception is repeated. */
  NEED(status == HYPHENATION_DONE || (status == HYPHENATION_REFUSED && (cause == 13 || cause == 14)));
  if (status) return 0;
  write_text(&h, &first);
  NEED(hyphenation_load(extended, first.bytes, first.length, &o, &at_line, &cause) == HYPHENATION_DONE);
  write_text(&o, &again);
  NEED(same(&first, &again));
  done[WRITTEN].number++;
  if (next(2)) {
    /* A pattern that no word has, whose value is so far before the end of its key that no table is made. */
    put_text(&again, "p 1zzzzzzzzzzzzzzzz\n");
    NEED(hyphenation_load(extended, again.bytes, again.length, &o, &at_line, &cause) == HYPHENATION_DONE);
  }
  for (int n = 0; n < 4; n++) {
    static answer here, there;
    word w = some_word(15);
    asked.length = 0;
    put_word(&asked, &w);
    ask(&h, &asked, &here);
    ask(&o, &asked, &there);
    NEED(same_answer(&here, &there));
    done[ASKED].number += here.count > 0;
    if (!extended) join(&h, &asked, &here);
    add_and_remove(&h, &w, &here, extended);
  }
  hyphenation_free(&h);
  hyphenation_free(&o);
  return 0;
}
