/* The calls of libhyphen, on a file in UTF-8, one in another charset, and a dictionary text. */
#include "hyphen.h"
#include <assert.h>
#include <stdlib.h>
#include <string.h>
#undef NDEBUG

static HyphenDict *load(const char *text) {
  FILE *file = tmpfile();
  assert(file && fwrite(text, 1, strlen(text), file) == strlen(text));
  rewind(file);
  HyphenDict *dict = hnj_hyphen_load_file(file);
  fclose(file);
  return dict;
}

static void check(HyphenDict *dict, const char *word, const char *hyphens, const char *marked) {
  char found[64], page[128], **rep = NULL;
  int *pos = NULL, *cut = NULL, size = (int)strlen(word);
  assert(hnj_hyphen_hyphenate2(dict, word, size, found, page, &rep, &pos, &cut) == 0);
  assert(strcmp(found, hyphens) == 0);
  assert(strcmp(page, marked) == 0);
  for (int i = 0; rep && i < size; i++) free(rep[i]);
  free(rep);
  free(pos);
  free(cut);
}

int main(void) {
  HyphenDict *dict = load("UTF-8\nLEFTHYPHENMIN 2\nRIGHTHYPHENMIN 2\n.as1szo/sz=sz,2,3\non1nya/ny=ny,2,3\n\xc3\xa9s1z\n");
  assert(dict && dict->utf8 && dict->lhmin == 2 && dict->rhmin == 2 && strcmp(dict->cset, "UTF-8") == 0);
  check(dict, "asszonnyal", "0100010000", "asz=szony=nyal");
  check(dict, "k\xc3\xa9szlet", "0010000", "k\xc3\xa9s=zlet");
  char found[64], **rep = NULL;
  int *pos = NULL, *cut = NULL;
  assert(hnj_hyphen_hyphenate2(dict, "asszonnyal", 10, found, NULL, &rep, &pos, &cut) == 0);
  assert(strcmp(rep[1], "sz=sz") == 0 && pos[1] == 1 && cut[1] == 3);
  assert(strcmp(rep[5], "ny=ny") == 0 && pos[5] == 1 && cut[5] == 3 && !rep[0]);
  free(rep[1]);
  free(rep[5]);
  free(rep);
  free(pos);
  free(cut);
  rep = NULL, pos = NULL, cut = NULL;
  assert(hnj_hyphen_hyphenate3(dict, "k\xc3\xa9szlet", 8, found, NULL, &rep, &pos, &cut, 4, 2, 0, 0) == 0);
  assert(strcmp(found, "0000000") == 0 && !rep);
  assert(hnj_hyphen_hyphenate2(dict, "\x80z", 2, found, NULL, &rep, &pos, &cut) == 1);
  assert(hnj_hyphen_hyphenate2(dict, "\xff", 1, found, NULL, &rep, &pos, &cut) == 0 && strcmp(found, "0") == 0);
  /* Lists that the caller does not want are not made, and the breaks stay. */
  assert(hnj_hyphen_hyphenate2(dict, "asszonnyal", 10, found, NULL, NULL, NULL, NULL) == 0);
  assert(strcmp(found, "0100010000") == 0);
  /* The file has one level, so that the one above it breaks at hyphens, and takes these breaks away. */
  assert(hnj_hyphen_hyphenate(dict, "foo-bar", 7, found) == 0 && strcmp(found, "0011000") == 0);
  check(dict, "foo-bar", "0000000", "foo-bar");
  check(dict, "", "", "");
  hnj_hyphen_free(dict);

  dict = load("ISO8859-2\n\xe9s1z\non1nya/ny=ny,2,3\n");
  assert(dict && !dict->utf8 && strcmp(dict->cset, "ISO8859-2") == 0 && dict->lhmin == 0);
  check(dict, "k\xe9szonnya", "001001000", "k\xe9s=zony=nya");
  hnj_hyphen_free(dict);

  dict = load("microsoft-cp1251\n\xe0""1\xe1\n");
  assert(dict && !dict->utf8 && strcmp(dict->cset, "microsoft-cp1251") == 0);
  check(dict, "\xe0\xe0\xe1\xe1", "0100", "\xe0\xe0=\xe1\xe1");
  hnj_hyphen_free(dict);

  /* Two levels: values, the minima of compounds, and a break of the upper level. */
  dict = load("UTF-8\nCOMPOUNDLEFTHYPHENMIN 3\nCOMPOUNDRIGHTHYPHENMIN -1\na3b\nNEXTLEVEL\nc1d\n");
  assert(dict && dict->lhmin == 0 && dict->clhmin == 3 && dict->crhmin == -1);
  check(dict, "cdabcdcd", "00300000", "cda=bcdcd");
  assert(hnj_hyphen_hyphenate3(dict, "cdcdabcdcd", 10, found, NULL, &rep, &pos, &cut, 2, 2, 2, 2) == 0);
  assert(strcmp(found, "0010300000") == 0 && !rep);
  hnj_hyphen_free(dict);

  /* More changes than the first call has room for. */
  dict = load("UTF-8\na1a/x=y,1,1\n");
  char many[41], digits[45], *twice = malloc(80);
  memset(many, 'a', 40);
  many[40] = 0;
  assert(twice && hnj_hyphen_hyphenate2(dict, many, 40, digits, twice, &rep, &pos, &cut) == 0);
  assert(strlen(digits) == 40 && digits[38] == '1' && digits[39] == '0' && twice[0] == 0);
  for (int i = 0; i < 40; i++) assert((i > 0 && i < 39) == (rep[i] != NULL)), free(rep[i]);
  free(twice);
  free(rep);
  free(pos);
  free(cut);
  rep = NULL, pos = NULL, cut = NULL;
  hnj_hyphen_free(dict);

  /* A written word that does not fit in twice its bytes is empty, and nothing is written behind that room. */
  dict = load("UTF-8\nbb1c/a-text-that-is-too-long=,1,2\nbb1d/xy=,1,2\n");
  char written[16];
  memset(written, '#', sizeof written);
  assert(hnj_hyphen_hyphenate2(dict, "abbca", 5, found, written, &rep, &pos, &cut) == 0);
  assert(strcmp(found, "00100") == 0 && strcmp(rep[2], "a-text-that-is-too-long=") == 0);
  assert(written[0] == 0 && memcmp(written + 10, "######", 6) == 0);
  free(rep[2]);
  free(rep);
  free(pos);
  free(cut);
  rep = NULL, pos = NULL, cut = NULL;
  check(dict, "abbda", "00100", "axy=da");
  hnj_hyphen_free(dict);

  dict = load("hyphenation 1 standard\nlanguage en-us\nminima 2 3\ne hyphenation 2 6 7\n");
  assert(dict && dict->utf8);
  check(dict, "Hyphenation", "01000110000", "Hy=phen=a=tion");
  assert(hnj_hyphen_hyphenate3(dict, "Hyphenation", 11, found, NULL, NULL, NULL, NULL, 3, 5, 0, 0) == 0);
  assert(strcmp(found, "00000100000") == 0);
  assert(hnj_hyphen_hyphenate(dict, "Hyphenation", 11, found) == 0 && strcmp(found, "01000110000") == 0);
  hnj_hyphen_free(dict);

  /* No break is beside a dash, nor with too few letters to it. */
  dict = load("hyphenation 1 standard\nlanguage de-1996\nminima 2 2\np a1u\np 1b\np c1k\np 1-1\n");
  assert(dict);
  check(dict, "stau-becken", "00000001000", "stau-bec=ken");
  check(dict, "staubecken", "0011001000", "sta=u=bec=ken");
  check(dict, "stau\xE2\x80\x93" "becken", "00000001000", "stau\xE2\x80\x93" "bec=ken");
  hnj_hyphen_free(dict);

  /* Any file is a .dic, but no faulty text is a dictionary. */
  dict = load("EBCDIC\n");
  assert(dict && strcmp(dict->cset, "EBCDIC") == 0);
  hnj_hyphen_free(dict);
  assert(!load("hyphenation 1 standard\nno language\n") && !hnj_hyphen_load("/no/such/file"));
  hnj_hyphen_free(NULL);
  puts("the calls of libhyphen return what they should");
  return 0;
}
