/* The calls of libhyphen over this library, for programs that are written for libhyphen: HyphenDict has its layout, so
 * that a compiled program runs with libhyphen.so.0 of this folder in LD_PRELOAD. README.md says what differs. */
#ifndef HYPHEN_H
#define HYPHEN_H
#include <stdio.h>
#ifdef __cplusplus
extern "C" {
#endif

#define MAX_CHARS 100
#define MAX_NAME 20

/* A dictionary. The minima are those of the file, and 0 where it says none; `cset` is the charset of the words that a
 * caller passes, and `utf8` is 1 if it is UTF-8. The other fields are zero. */
typedef struct _HyphenDict HyphenDict;
struct _HyphenDict {
  char lhmin, rhmin, clhmin, crhmin;
  char *nohyphen;
  int nohyphenl;
  int num_states;
  char cset[MAX_NAME];
  int utf8;
  void *states;
  HyphenDict *nextlevel;
};

/* Loads a .dic, or a dictionary text of this library, which begins with "hyphenation ". Returns NULL if the file
 * can't be read, or such a text is faulty, or memory is short. hnj_hyphen_free frees the dictionary. */
HyphenDict *hnj_hyphen_load(const char *path);
HyphenDict *hnj_hyphen_load_file(FILE *file);

/* Frees a dictionary; NULL is none. */
void hnj_hyphen_free(HyphenDict *dict);

/* Finds the breaks of a word of word_size bytes in the charset of the dictionary. The word and the text behind it
 * end with a NUL; the text behind it counts for minima and NOHYPHEN. hyphens[i] is a digit, and an odd one if the
 * word may be broken behind its character i, counted from 0; a NUL follows the last one. `hyphens` has word_size + 5
 * bytes. hyphenated_word, if it is not NULL, has 2 * word_size bytes at least, and one for the empty word. It is the
 * word with = at its breaks, and with the texts of changes, if that fits with a NUL behind it, and else the empty
 * text.
 *
 * For a break that changes letters (*rep)[i] is a text with = for the break, (*pos)[i] how many characters up to the
 * break it takes the place of, and (*cut)[i] how many characters in all. The three lists are made if there are
 * changes and *rep is NULL; the caller frees them and each text with free. Where rep, pos or cut is NULL there are
 * no lists. Returns 0, or 1 if the charset is UTF-8 and the word begins within a character, or if memory is short. */
int hnj_hyphen_hyphenate2(HyphenDict *dict, const char *word, int word_size, char *hyphens, char *hyphenated_word,
                          char ***rep, int **pos, int **cut);

/* The same with minima of the caller's, of each the greater one of them and of the dictionary's. They are the least
 * numbers of characters before and behind a break of the word, and within the part of a compound. */
int hnj_hyphen_hyphenate3(HyphenDict *dict, const char *word, int word_size, char *hyphens, char *hyphenated_word,
                          char ***rep, int **pos, int **cut, int lhmin, int rhmin, int clhmin, int crhmin);

/* Obsolete: hyphens[i] is the digit behind byte i by the patterns of the first level that change nothing. */
int hnj_hyphen_hyphenate(HyphenDict *dict, const char *word, int word_size, char *hyphens);

#ifdef __cplusplus
}
#endif
#endif
