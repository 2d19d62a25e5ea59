/* The answers of a library that has the calls of libhyphen, as lines of text, which tests/compare-libhyphen compares.
 *
 *   drop_in LIBRARY [strict] [flush]
 *
 * A line of standard input is a .dic, a file of words, and minima such as 2,3,2,3, with tabs between them. A line of the
 * file is a word in the charset of the .dic, and behind a tab what is behind it. For each .dic a line is written with
 * what the library says of the file, and then a line for each word: the answers of hnj_hyphen_hyphenate2, of
 * hnj_hyphen_hyphenate3 with each of the minima, and of hnj_hyphen_hyphenate. With `strict` a word ends with " over" if a
 * buffer was written to behind the end that hyphen.h names, or no NUL is behind the digits. (Libhyphen may write a digit
 * there, where a text of NOHYPHEN is behind the word.) It does so, too, if the first call gives other digits where it is
 * not asked for the written word. With `flush` each line is out before the next word is asked for, which a library may not
 * survive. */
#define _GNU_SOURCE
#include "../bindings/c/hyphen.h"
#include <dlfcn.h>
#include <stdbool.h>
#include <stdint.h>
#include <stdlib.h>
#include <string.h>

enum { MINIMA = 8, BEHIND = 64, FILL = 0x5a };

/* The calls of the library. */
static struct {
  __typeof__(hnj_hyphen_load) *load;
  __typeof__(hnj_hyphen_free) *free;
  __typeof__(hnj_hyphen_hyphenate) *hyphenate;
  __typeof__(hnj_hyphen_hyphenate2) *hyphenate2;
  __typeof__(hnj_hyphen_hyphenate3) *hyphenate3;
} calls;

/* The buffers that the library writes to. Libhyphen itself may write more than twice the word. */
static char *digits, *marked;
static size_t room;
static bool strict, flushing;

static void *call(void *library, const char *name) {
  void *found = dlsym(library, name);
  if (found) return found;
  fprintf(stderr, "%s\n", dlerror());
  exit(2);
}

static void make_room(size_t size) {
  if (size <= room) return;
  room = 2 * size;
  digits = realloc(digits, room + 5 + BEHIND);
  marked = realloc(marked, 20 * room + 1000);
  if (!digits || !marked) exit(2);
}

static void put_hex(const char *text) {
  static const char hex[] = "0123456789abcdef";
  for (; *text; text++) {
    putchar_unlocked(hex[(unsigned char)*text >> 4]);
    putchar_unlocked(hex[*text & 15]);
  }
}

/* How many digits a word has. */
static size_t digits_of(const HyphenDict *dict, const char *word, size_t size) {
  size_t count = 0;
  for (size_t i = 0; i < size; i++) count += !dict->utf8 || ((unsigned char)word[i] >> 6) != 2;
  return count;
}

static void put_digits(size_t count) {
  for (size_t i = 0; i < count; i++)
    if (digits[i] >= '0' && digits[i] <= '9') putchar_unlocked(digits[i]);
    else printf(digits[i] ? "<%02x>" : "n", (unsigned char)digits[i]);
}

static bool is_filled(const char *from) {
  for (size_t i = 0; i < BEHIND; i++)
    if (from[i] != FILL) return false;
  return true;
}

/* Writes the answer of one call; `minima` is NULL for hnj_hyphen_hyphenate2. Returns whether the buffers were kept to. */
static bool answer(HyphenDict *dict, const char *word, size_t size, const int *minima) {
  char **rep = NULL;
  int *pos = NULL, *cut = NULL;
  size_t written = size > 0 ? 2 * size : 1;
  if (strict) {
    memset(digits + size + 5, FILL, BEHIND);
    memset(marked + written, FILL, BEHIND);
  }
  bool ended = true;
  int status = minima ? calls.hyphenate3(dict, word, (int)size, digits, marked, &rep, &pos, &cut, minima[0], minima[1],
                                         minima[2], minima[3])
                      : calls.hyphenate2(dict, word, (int)size, digits, marked, &rep, &pos, &cut);
  printf("%d", status);
  if (status == 0) {
    size_t count = digits_of(dict, word, size);
    putchar(':');
    put_digits(count);
    ended = !digits[count];
    printf(rep ? ":l" : ":");
    for (size_t i = 0; rep && i < count; i++) {
      if (!rep[i]) continue;
      printf(";%zu,", i);
      put_hex(rep[i]);
      printf(",%d,%d", pos[i], cut[i]);
    }
    putchar(':');
    put_hex(marked);
  }
  for (size_t i = 0; rep && i < size; i++) free(rep[i]);
  free(rep);
  free(pos);
  free(cut);
  return !strict || (ended && is_filled(digits + size + 5) && is_filled(marked + written));
}

/* Whether hnj_hyphen_hyphenate2 gives the digits that are there once more, where the written word is not asked for. */
static bool is_same_alone(HyphenDict *dict, const char *word, size_t size) {
  char **rep = NULL;
  int *pos = NULL, *cut = NULL;
  size_t count = digits_of(dict, word, size);
  char *before = malloc(count + 1);
  if (!before) exit(2);
  memcpy(before, digits, count);
  bool same = calls.hyphenate2(dict, word, (int)size, digits, NULL, &rep, &pos, &cut) != 0 ||
              memcmp(before, digits, count) == 0;
  for (size_t i = 0; rep && i < size; i++) free(rep[i]);
  free(rep);
  free(pos);
  free(cut);
  free(before);
  return same;
}

static void answers(HyphenDict *dict, const char *word, size_t size, int (*minima)[4], size_t count) {
  make_room(size);
  bool kept = answer(dict, word, size, NULL);
  if (strict) kept = is_same_alone(dict, word, size) && kept;
  for (size_t n = 0; n < count; n++) {
    putchar(' ');
    kept = answer(dict, word, size, minima[n]) && kept;
  }
  memset(digits, FILL, size + 5 + BEHIND);
  printf(" %d:", calls.hyphenate(dict, word, (int)size, digits));
  put_digits(size);
  puts(kept && !digits[size] && is_filled(digits + size + 5) ? "" : strict ? " over" : "");
  if (flushing) fflush(stdout);
}

static void go(const char *dic, FILE *words, int (*minima)[4], size_t count) {
  HyphenDict *dict = calls.load(dic);
  if (!dict) {
    puts("= none");
    return;
  }
  printf("= ");
  put_hex(dict->cset);
  printf(" %d %d %d %d %d\n", dict->utf8 != 0, dict->lhmin, dict->rhmin, dict->clhmin, dict->crhmin);
  if (flushing) fflush(stdout);
  char *line = NULL;
  size_t size = 0;
  for (ssize_t length; (length = getline(&line, &size, words)) >= 0;) {
    if (length > 0 && line[length - 1] == '\n') line[--length] = 0;
    char *tab = memchr(line, '\t', (size_t)length);
    size_t end = tab ? (size_t)(tab - line) : (size_t)length;
    if (tab) memmove(tab, tab + 1, (size_t)length - end);
    answers(dict, line, end, minima, count);
  }
  free(line);
  calls.free(dict);
}

int main(int argc, char **argv) {
  if (argc < 2) return 2;
  void *library = dlopen(argv[1], RTLD_NOW | RTLD_LOCAL);
  if (!library) {
    fprintf(stderr, "%s\n", dlerror());
    return 2;
  }
  for (int i = 2; i < argc; i++) *(argv[i][0] == 's' ? &strict : &flushing) = true;
  *(void **)&calls.load = call(library, "hnj_hyphen_load");
  *(void **)&calls.free = call(library, "hnj_hyphen_free");
  *(void **)&calls.hyphenate = call(library, "hnj_hyphen_hyphenate");
  *(void **)&calls.hyphenate2 = call(library, "hnj_hyphen_hyphenate2");
  *(void **)&calls.hyphenate3 = call(library, "hnj_hyphen_hyphenate3");
  make_room(64);
  char *line = NULL;
  size_t size = 0;
  while (getline(&line, &size, stdin) >= 0) {
    int minima[MINIMA][4];
    size_t count = 0;
    const char *dic = strtok(line, "\t\n"), *path = strtok(NULL, "\t\n"), *given;
    while (count < MINIMA && (given = strtok(NULL, "\t\n"))) {
      int *m = minima[count];
      count += sscanf(given, "%d,%d,%d,%d", &m[0], &m[1], &m[2], &m[3]) == 4;
    }
    FILE *words = path ? fopen(path, "rb") : NULL;
    if (!words) return 2;
    go(dic, words, minima, count);
    fclose(words);
  }
  free(line);
  free(digits);
  free(marked);
  return dlclose(library);
}
