/* Libhyphen, which LibreOffice uses. It takes small letters, so the capitals of ASCII are made small first. With `written` as
 * the first argument it asks for the written word too. */
#include <hyphen.h>
#include "peer.h"

static HyphenDict *dictionary;
static char word[1 << 12], hyphens[(1 << 12) + 5], written[(1 << 14) + 5], *with_written;

static void load(const char *path) {
  dictionary = hnj_hyphen_load(path);
  if (!dictionary) die("the dictionary was not loaded");
}

static size_t breaks_of_word(const char *given, size_t length) {
  char **texts = NULL;
  int *starts = NULL, *cuts = NULL;
  size_t found = 0;
  if (length >= sizeof word) die("a word is too long");
  /* A NUL has to follow: libhyphen looks for it. */
  memcpy(word, given, length);
  word[length] = 0;
  if (hnj_hyphen_hyphenate2(dictionary, word, (int)length, hyphens, with_written, &texts, &starts, &cuts) != 0)
    die("a word was refused");
  /* There is a value for each character, not for each byte, and a NUL behind them. */
  for (size_t i = 0; hyphens[i]; i++) found += hyphens[i] & 1;
  if (texts) {
    for (size_t i = 0; i < length; i++) free(texts[i]);
    free(texts);
    free(starts);
    free(cuts);
  }
  return found;
}

static int is_letter(char c) { return (c & 0x80) != 0 || isalpha((unsigned char)c); }

/* The words of the text are its runs of letters. */
static size_t breaks_of_text(const char *text, size_t length, char *marked) {
  size_t found = 0;
  for (size_t at = 0; at < length;) {
    size_t end = at;
    while (end < length && is_letter(text[end])) end++;
    if (end == at) {
      *marked++ = text[at++];
      continue;
    }
    char small[1 << 12];
    if (end - at > sizeof small) die("a word is too long");
    for (size_t i = at; i < end; i++) small[i - at] = (char)tolower((unsigned char)text[i]);
    found += breaks_of_word(small, end - at);
    /* The value of a place is at the last byte of the character before it. */
    for (size_t i = at, character = 0; i < end; i++) {
      *marked++ = text[i];
      if (i + 1 < end && (text[i + 1] & 0xc0) == 0x80) continue;
      if (i + 1 < end && (hyphens[character] & 1)) *marked++ = '-';
      character++;
    }
    at = end;
  }
  return found;
}

int main(int argc, char **argv) {
  with_written = argc > 1 && strcmp(argv[1], "written") == 0 ? written : NULL;
  return with_written ? go_through(argc - 1, argv + 1) : go_through(argc, argv);
}
