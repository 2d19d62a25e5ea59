/* The calls of hyphenation.h that are not proved: messages, the version, and the call that takes files as a struct. The
 * Makefile lays them beside the proved ones, in one object. */
#include "hyphenation.h"

/* The proved call, by the name that the Makefile gives to it. */
uint32_t proved_load_patterns(uint32_t kind, uint32_t form, const uint8_t *language, size_t language_length, uint32_t left,
                              uint32_t right, const uint8_t *patterns, size_t patterns_length, const uint8_t *exceptions,
                              size_t exceptions_length, hyphenation *handle, size_t *file, size_t *line, uint32_t *cause);

/* tests/bindings compares both tables with the messages of the proved crates, and the numbers with theirs. */
static const char *const statuses[] = {
    [HYPHENATION_DONE] = "done",
    [HYPHENATION_NO_ROOM] = "a buffer is too short",
    [HYPHENATION_OUT_OF_MEMORY] = "no memory",
    [HYPHENATION_NO_DICTIONARY] = "the handle holds no dictionary",
    [HYPHENATION_NOT_UTF8] = "not UTF-8",
    [HYPHENATION_REFUSED] = "the text, the file or the edit is faulty",
    [HYPHENATION_OTHER_KIND] = "another kind of dictionary",
    [HYPHENATION_NO_LANGUAGE] = "not a code of a language",
    [HYPHENATION_BAD_ENDS] = "a word ends before it begins, or after the text",
    [HYPHENATION_NO_MINIMA] = "no file says the minima",
    [HYPHENATION_NO_EXCEPTION] = "the word is no exception",
};

/* From 1 on the causes of dictionary texts, from 21 on those of files of patterns. */
static const char *const causes[] = {
    [1] = "not UTF-8",
    [2] = "not the head of this kind of dictionary",
    [3] = "not a language line",
    [4] = "not a minima line",
    [5] = "unknown line",
    [6] = "bad token",
    [7] = "bad value",
    [8] = "two values in one place",
    [9] = "a pattern without letters",
    [10] = "bad number",
    [11] = "bad place",
    [12] = "bad change",
    [13] = "repeated pattern",
    [14] = "repeated exception",
    [21] = "a TeX command or group within patterns or exceptions",
    [22] = "^, a character of a font's encoding: take the file in UTF-8",
    [23] = "a sign that stands in no pattern or exception",
    [24] = "two digits or two hyphens in one place",
    [25] = "a pattern without letters",
    [26] = "not UTF-8",
    [27] = "\\input: give the files that have the patterns themselves",
    [28] = "the group of patterns or exceptions that begins here is not closed",
    [29] = "no charset that is known here",
    [30] = "a byte that stands for no character in the charset of line 1",
    [31] = "not a minimum, which is a number from 0 to 255",
    [32] = "no pattern and no exception in the file",
};

/* The message of a number in a table; "" if it has none. */
static const char *message(const char *const *table, size_t length, size_t number) {
  return number < length && table[number] ? table[number] : "";
}

const char *hyphenation_version(void) { return HYPHENATION_VERSION; }

const char *hyphenation_status_message(hyphenation_status status) {
  return message(statuses, sizeof statuses / sizeof *statuses, (size_t)(uint32_t)status);
}

const char *hyphenation_cause_message(uint32_t cause) {
  return message(causes, sizeof causes / sizeof *causes, cause);
}

hyphenation_status hyphenation_load_patterns(const hyphenation_patterns *files, hyphenation *handle,
                                             hyphenation_fault *fault) {
  static const uint8_t none = 0;
  return (hyphenation_status)proved_load_patterns(
      files->kind, files->form, files->language, files->language_length, files->left, files->right, files->patterns,
      files->patterns_length, files->exceptions ? files->exceptions : &none, files->exceptions_length, handle, &fault->file,
      &fault->line, &fault->cause);
}
