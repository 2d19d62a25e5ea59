/* The extension hyphenation._extension: the calls of libhyphenation.so.0 for Python, by its limited API. It has the class and
 * the functions of hyphenation/_by_ctypes.py, whose comments say what each does.
 *
 * The library is opened when the package is imported, by the path that ctypes would take, so that nothing is linked to it.
 * Each call has the type that hyphenation.h declares.
 *
 * There is no lock. A call that is made for a word keeps the lock of the interpreter, so that a handle is given to one call
 * at a time. A call that may take long, also of a long word, gives it back meanwhile, and so has a handle of its own, which
 * shares the dictionary.
 *
 * Each interpreter of a process has a module, a class and exceptions of its own. Only the addresses of the calls are shared. */
#define PY_SSIZE_T_CLEAN
#define Py_LIMITED_API 0x030A0000
#include <Python.h>
#include <dlfcn.h>
#include <stdlib.h>
#include <string.h>
#include "hyphenation.h"
#if PY_VERSION_HEX < 0x030A0000
#error "the limited API of Python 3.10 is not in these headers"
#endif

#define CALLS(EACH)                                                                                                        \
  EACH(kind_of) EACH(load) EACH(load_dic) EACH(load_patterns) EACH(free) EACH(share) EACH(edit) EACH(add_exceptions)       \
  EACH(raise_minima) EACH(language) EACH(minima) EACH(breaks) EACH(composed_breaks) EACH(breaks_of_words) EACH(values)     \
  EACH(changes) EACH(exception) EACH(text) EACH(fill) EACH(write) EACH(paths) EACH(exception_paths) EACH(cause_message)
static struct {
#define DECLARE(name) __typeof__(&hyphenation_##name) name;
  CALLS(DECLARE)
} calls;

/* What a module has: the function of Python that raises the exception of a status; NULL before the library is open. */
typedef struct {
  PyObject *raises;
} State;

typedef struct {
  PyObject_HEAD
  hyphenation handle;
} Handle;
#define OF(self) (&((Handle *)(self))->handle)

/* The state of a module, or of the one whose handle it is. */
static State *state_of(PyObject *self) {
  return PyModule_Check(self) ? PyModule_GetState(self) : PyType_GetModuleState(Py_TYPE(self));
}

/* Raises the exception of a status, and returns NULL. */
static PyObject *fail(PyObject *self, uint32_t status) {
  PyObject *raises = state_of(self)->raises, *number = PyLong_FromUnsignedLong(status);
  PyObject *none = number ? PyObject_CallFunctionObjArgs(raises, number, NULL) : NULL;
  Py_XDECREF(number);
  if (none) {
    Py_DECREF(none);
    PyErr_SetString(PyExc_SystemError, "a status raised nothing");
  }
  return NULL;
}

/* The UTF-8 of a str, which lives as long as it; NULL with an exception set if it is none, or has a surrogate. */
static const uint8_t *utf8_of(PyObject *text, size_t *length) {
  Py_ssize_t size;
  if (!PyUnicode_Check(text)) {
    PyObject *name = PyObject_GetAttrString((PyObject *)Py_TYPE(text), "__name__");
    if (name) PyErr_Format(PyExc_TypeError, "a str is required, not %R", name);
    Py_XDECREF(name);
    return NULL;
  }
  const char *bytes = PyUnicode_AsUTF8AndSize(text, &size);
  if (bytes) *length = (size_t)size;
  return (const uint8_t *)bytes;
}

/* Room for `count` values of `size` bytes each, which are 0; NULL if memory is refused. */
static void *room_of(size_t count, size_t size) {
  return count <= PY_SSIZE_T_MAX / size ? calloc(count ? count : 1, size) : NULL;
}

/* The same; NULL with an exception set. */
static void *room_for(size_t count, size_t size) {
  void *room = room_of(count, size);
  if (!room) PyErr_NoMemory();
  return room;
}

/* ---- Long calls. */

/* A call for a word of as many bytes may take long. */
enum { LONG = 1 << 12 };

/* What a call gets: the handle that it asks, and in a long call one of its own, and the state of the waiting thread. */
typedef struct {
  hyphenation *handle, own;
  PyThreadState *thread;
} Lent;

/* Lends a handle. If the call is a long one other threads run from now on. Returns false with an exception set if memory is
 * refused, or if there is no dictionary. */
static bool lend(PyObject *self, bool is_long, Lent *it) {
  it->handle = OF(self);
  it->thread = NULL;
  if (!is_long) return true;
  it->own = (hyphenation)HYPHENATION_NONE;
  uint32_t status = calls.share(OF(self), &it->own);
  if (status != HYPHENATION_DONE) {
    fail(self, status);
    return false;
  }
  it->handle = &it->own;
  it->thread = PyEval_SaveThread();
  return true;
}

/* Takes back what was lent. */
static void take_back(Lent *it) {
  if (!it->thread) return;
  PyEval_RestoreThread(it->thread);
  calls.free(&it->own);
}

/* ---- Lists of positions. */

/* Counts characters: those of `text` from `*at` up to the place `end` are added to `*characters`. */
static size_t characters_to(const uint8_t *text, size_t end, size_t *at, size_t *characters) {
  for (; *at < end; ++*at) *characters += (text[*at] & 0xC0) != 0x80;
  return *characters;
}

/* The list of places in a text, which ascend, as numbers of bytes. With `text` they become numbers of characters. */
static PyObject *list_of(const size_t *places, size_t count, const uint8_t *text) {
  PyObject *list = PyList_New((Py_ssize_t)count);
  size_t at = 0, characters = 0;
  if (!list) return NULL;
  for (size_t i = 0; i < count; ++i) {
    PyObject *place = PyLong_FromSize_t(text ? characters_to(text, places[i], &at, &characters) : places[i]);
    if (!place || PyList_SetItem(list, (Py_ssize_t)i, place)) {
      Py_DECREF(list);
      return NULL;
    }
  }
  return list;
}

/* A word has seldom more breaks than these. */
enum { USUAL = 64 };

static PyObject *list_of_breaks(PyObject *self, PyObject *word, __typeof__(&hyphenation_breaks) ask, bool in_characters) {
  size_t length, count = 0, usual[USUAL], *places = usual;
  const uint8_t *text = utf8_of(word, &length);
  PyObject *list = NULL;
  Lent lent;
  if (!text || !lend(self, length >= LONG, &lent)) return NULL;
  uint32_t status = ask(lent.handle, text, length, places, USUAL, &count);
  if (status == HYPHENATION_NO_ROOM) {
    size_t room = count;
    places = room_of(room, sizeof *places);
    status = places ? ask(lent.handle, text, length, places, room, &count) : HYPHENATION_OUT_OF_MEMORY;
  }
  take_back(&lent);
  if (status != HYPHENATION_DONE) {
    fail(self, status);
  } else {
    bool plain = !in_characters || (size_t)PyUnicode_GetLength(word) == length;
    list = list_of(places, count, plain ? NULL : text);
  }
  if (places != usual) free(places);
  return list;
}

static PyObject *places(PyObject *self, PyObject *word) { return list_of_breaks(self, word, calls.breaks, false); }

static PyObject *positions(PyObject *self, PyObject *word) { return list_of_breaks(self, word, calls.breaks, true); }

static PyObject *composed_positions(PyObject *self, PyObject *word) {
  return list_of_breaks(self, word, calls.composed_breaks, true);
}

/* ---- Breaks that make changes. */

/* For each byte of a word, and for its end, the number of characters before it; NULL with an exception set if memory is
 * refused. So each place of a word, in whatever order they come, is counted in one step. */
static size_t *characters_of(const uint8_t *word, size_t length) {
  size_t *before = room_for(length + 1, sizeof *before), at = 0, characters = 0;
  for (size_t i = 0; before && i <= length; ++i) before[i] = characters_to(word, i, &at, &characters);
  return before;
}

/* A place in a word as a number of characters. Without `before` each byte is one. */
static Py_ssize_t position_of(size_t place, const size_t *before) {
  return (Py_ssize_t)(before ? before[place] : place);
}

/* The tuple of a change, whose texts begin at `texts`. */
static PyObject *tuple_of(const hyphenation_change *it, const size_t *before, const uint8_t *texts) {
  return Py_BuildValue("(nnns#s#)", position_of(it->place, before), position_of(it->begin, before),
                       position_of(it->end, before), (const char *)texts, (Py_ssize_t)it->before,
                       (const char *)texts + it->before, (Py_ssize_t)it->after);
}

/* An item of either sort. */
typedef union {
  hyphenation_change change;
  hyphenation_numbered listed;
} Item;

/* What a call writes of a word: items of one sort, and their texts, one after the other. */
typedef struct {
  union {
    Item *any;
    hyphenation_change *changes;
    hyphenation_numbered *listed;
  } at;
  uint8_t *texts;
  size_t room, count, texts_room, texts_count;
} Items;
enum { USUAL_BYTES = 512 };

/* The list of positions, and that of changes or None where there is no change. */
static PyObject *pair_of(const Items *items, const size_t *before) {
  const hyphenation_change *found = items->at.changes;
  const uint8_t *texts = items->texts;
  size_t count = items->count;
  bool changed = items->texts_count != 0;
  PyObject *list = NULL, *at = PyList_New((Py_ssize_t)count), *position;
  for (size_t i = 0; i < count; ++i) changed |= found[i].begin != found[i].place || found[i].end != found[i].place;
  if (changed) list = PyList_New((Py_ssize_t)count);
  if (!at || (changed && !list)) goto failed;
  for (size_t i = 0; i < count; ++i) {
    position = PyLong_FromSsize_t(position_of(found[i].place, before));
    if (!position || PyList_SetItem(at, (Py_ssize_t)i, position)) goto failed;
    if (changed) {
      PyObject *tuple = tuple_of(&found[i], before, texts);
      if (!tuple || PyList_SetItem(list, (Py_ssize_t)i, tuple)) goto failed;
      texts += found[i].before + found[i].after;
    }
  }
  return changed ? Py_BuildValue("(NN)", at, list) : Py_BuildValue("(NO)", at, Py_None);
failed:
  Py_XDECREF(at);
  Py_XDECREF(list);
  return NULL;
}

/* The tuple of a listed break, whose text begins at `text`. */
static PyObject *tuple_of_listed(const hyphenation_numbered *it, const size_t *before, const uint8_t *text) {
  hyphenation_change change = {it->number, it->number - it->left, it->number + it->right, it->breakpoint,
                               it->length - it->breakpoint};
  return tuple_of(&change, before, text);
}

static PyObject *list_of_listed(const Items *found, const size_t *before) {
  PyObject *list = PyList_New((Py_ssize_t)found->count);
  const uint8_t *texts = found->texts;
  for (size_t i = 0; list && i < found->count; texts += found->at.listed[i++].length) {
    PyObject *tuple = tuple_of_listed(&found->at.listed[i], before, texts);
    if (!tuple || PyList_SetItem(list, (Py_ssize_t)i, tuple)) {
      Py_DECREF(list);
      return NULL;
    }
  }
  return list;
}

static uint32_t ask_for_changes(hyphenation *handle, const uint8_t *word, size_t length, Items *it) {
  return calls.changes(handle, word, length, it->at.changes, it->room, &it->count, it->texts, it->texts_room,
                       &it->texts_count);
}

static uint32_t ask_for_exception(hyphenation *handle, const uint8_t *word, size_t length, Items *it) {
  return calls.exception(handle, word, length, it->at.listed, it->room, &it->count, it->texts, it->texts_room,
                         &it->texts_count);
}

/* What a call writes of a word, as `made` makes it; None where it says that the word is no exception. */
static PyObject *items_of(PyObject *self, PyObject *word,
                          uint32_t (*ask)(hyphenation *handle, const uint8_t *word, size_t length, Items *it),
                          PyObject *(*made)(const Items *found, const size_t *before)) {
  Item usual[USUAL];
  uint8_t usual_texts[USUAL_BYTES];
  Items it = {.at.any = usual, .room = USUAL, .texts = usual_texts, .texts_room = USUAL_BYTES};
  size_t length, *before = NULL;
  const uint8_t *text = utf8_of(word, &length);
  PyObject *result = NULL;
  Lent lent;
  if (!text || !lend(self, length >= LONG, &lent)) return NULL;
  uint32_t status = ask(lent.handle, text, length, &it);
  if (status == HYPHENATION_NO_ROOM) {
    it.room = it.count;
    it.texts_room = it.texts_count;
    it.at.any = room_of(it.room, sizeof *usual);
    it.texts = room_of(it.texts_room, 1);
    status = it.at.any && it.texts ? ask(lent.handle, text, length, &it) : HYPHENATION_OUT_OF_MEMORY;
  }
  take_back(&lent);
  bool plain = it.count == 0 || (size_t)PyUnicode_GetLength(word) == length;
  if (status == HYPHENATION_NO_EXCEPTION) result = Py_NewRef(Py_None);
  else if (status != HYPHENATION_DONE) fail(self, status);
  else if (plain || (before = characters_of(text, length))) result = made(&it, before);
  if (it.at.any != usual) free(it.at.any);
  if (it.texts != usual_texts) free(it.texts);
  free(before);
  return result;
}

static PyObject *changes(PyObject *self, PyObject *word) { return items_of(self, word, ask_for_changes, pair_of); }

static PyObject *exception(PyObject *self, PyObject *word) {
  return items_of(self, word, ask_for_exception, list_of_listed);
}

/* ---- A list of words. */

typedef struct {
  uint8_t *text;
  size_t *ends;       /* where each word ends in the text */
  size_t *place_ends; /* where the places of each word end in the list of all */
  size_t *places;
  size_t length, words, room, count, stops;
} Words;

static void free_words(Words *it) {
  free(it->text);
  free(it->ends);
  free(it->place_ends);
  free(it->places);
}

/* Lays the words of a tuple one after the other. Returns false with an exception set if that can't be done. */
static bool lay_words(PyObject *tuple, Words *it) {
  it->words = (size_t)PyTuple_Size(tuple);
  if (!(it->ends = room_for(it->words, sizeof *it->ends)) || !(it->place_ends = room_for(it->words, sizeof *it->ends)))
    return false;
  for (size_t i = 0, length; i < it->words; ++i) {
    if (!utf8_of(PyTuple_GetItem(tuple, (Py_ssize_t)i), &length)) return false;
    it->ends[i] = it->length += length;
  }
  it->room = it->length / 4 + 16;
  if (!(it->text = room_for(it->length, 1)) || !(it->places = room_for(it->room, sizeof *it->places))) return false;
  for (size_t i = 0, at = 0, length; i < it->words; at = it->ends[i++])
    memcpy(it->text + at, utf8_of(PyTuple_GetItem(tuple, (Py_ssize_t)i), &length), it->ends[i] - at);
  return true;
}

/* Asks for the breaks of all words. */
static uint32_t break_words(hyphenation *handle, Words *it) {
  return calls.breaks_of_words(handle, it->text, it->length, it->ends, it->words, it->places, it->room, &it->count,
                               it->place_ends, it->words, &it->stops);
}

/* The list of the lists of positions. */
static PyObject *lists_of(const Words *it) {
  PyObject *all = PyList_New((Py_ssize_t)it->words);
  size_t begin = 0, at = 0;
  for (size_t i = 0; all && i < it->words; at = it->ends[i], begin = it->place_ends[i++]) {
    PyObject *list = list_of(it->places + begin, it->place_ends[i] - begin, it->text + at);
    if (!list || PyList_SetItem(all, (Py_ssize_t)i, list)) {
      Py_DECREF(all);
      return NULL;
    }
  }
  return all;
}

static PyObject *positions_of(PyObject *self, PyObject *tuple) {
  Words words = {0};
  PyObject *all = NULL;
  Lent lent;
  if (!PyTuple_Check(tuple)) {
    PyErr_SetString(PyExc_TypeError, "the words are no tuple");
    return NULL;
  }
  if (lay_words(tuple, &words) && lend(self, true, &lent)) {
    uint32_t status = break_words(lent.handle, &words);
    if (status == HYPHENATION_NO_ROOM) {
      size_t *more = words.count <= SIZE_MAX / sizeof *more ? realloc(words.places, words.count * sizeof *more) : NULL;
      if (more) {
        words.places = more;
        words.room = words.count;
        status = break_words(lent.handle, &words);
      } else {
        status = HYPHENATION_OUT_OF_MEMORY;
      }
    }
    take_back(&lent);
    if (status == HYPHENATION_DONE) all = lists_of(&words);
    else fail(self, status);
  }
  free_words(&words);
  return all;
}

/* ---- Calls that write bytes. */

/* What such a call asks, and of which handle. */
typedef struct Question {
  uint32_t (*ask)(struct Question *it, uint8_t *buffer, size_t capacity, size_t *count);
  hyphenation *handle;
  const uint8_t *text, *mark, *more[2];
  size_t length, mark_length, more_length[2], columns;
} Question;

/* Makes the call with a room and then, if it is too short, with the room that is wanted. The result is a str, or bytes if
 * `raw`. Of a module no handle is asked. */
static PyObject *written(PyObject *self, Question *it, size_t room, bool is_long, bool raw) {
  size_t count = 0;
  uint8_t *buffer = room_for(room, 1);
  PyObject *result = NULL;
  Lent lent;
  if (!buffer || !lend(self, is_long, &lent)) {
    free(buffer);
    return NULL;
  }
  it->handle = lent.handle;
  uint32_t status = it->ask(it, buffer, room, &count);
  if (status == HYPHENATION_NO_ROOM) {
    free(buffer);
    buffer = room_of(room = count, 1);
    status = buffer ? it->ask(it, buffer, room, &count) : HYPHENATION_OUT_OF_MEMORY;
  }
  take_back(&lent);
  if (status != HYPHENATION_DONE) fail(self, status);
  else if (raw) result = PyBytes_FromStringAndSize((const char *)buffer, (Py_ssize_t)count);
  else result = PyUnicode_DecodeUTF8((const char *)buffer, (Py_ssize_t)count, NULL);
  free(buffer);
  return result;
}

static uint32_t ask_language(Question *it, uint8_t *buffer, size_t capacity, size_t *count) {
  return calls.language(it->handle, buffer, capacity, count);
}

static PyObject *language(PyObject *self, PyObject *Py_UNUSED(none)) {
  Question it = {.ask = ask_language};
  return written(self, &it, 32, false, false);
}

static uint32_t ask_values(Question *it, uint8_t *buffer, size_t capacity, size_t *count) {
  return calls.values(it->handle, it->text, it->length, buffer, capacity, count);
}

static PyObject *values(PyObject *self, PyObject *word) {
  Question it = {.ask = ask_values};
  return (it.text = utf8_of(word, &it.length)) ? written(self, &it, it.length, it.length >= LONG, true) : NULL;
}

static uint32_t ask_text(Question *it, uint8_t *buffer, size_t capacity, size_t *count) {
  return calls.text(it->handle, it->text, it->length, it->mark, it->mark_length, buffer, capacity, count);
}

static PyObject *text(PyObject *self, PyObject *arguments) {
  Question it = {.ask = ask_text};
  PyObject *content, *mark;
  if (!PyArg_ParseTuple(arguments, "OO", &content, &mark)) return NULL;
  if (!(it.text = utf8_of(content, &it.length)) || !(it.mark = utf8_of(mark, &it.mark_length))) return NULL;
  return written(self, &it, it.length + it.length / 2 + 16, true, false);
}

static uint32_t ask_fill(Question *it, uint8_t *buffer, size_t capacity, size_t *count) {
  return calls.fill(it->handle, it->text, it->length, it->columns, buffer, capacity, count);
}

static PyObject *fill(PyObject *self, PyObject *arguments) {
  Question it = {.ask = ask_fill};
  PyObject *content, *columns;
  if (!PyArg_ParseTuple(arguments, "OO", &content, &columns)) return NULL;
  it.columns = PyLong_AsSize_t(columns);
  if (it.columns == (size_t)-1 && PyErr_Occurred()) return NULL;
  if (!(it.text = utf8_of(content, &it.length))) return NULL;
  return written(self, &it, it.length + it.length / 8 + 16, true, false);
}

static uint32_t ask_write(Question *it, uint8_t *buffer, size_t capacity, size_t *count) {
  return calls.write(it->handle, buffer, capacity, count);
}

static PyObject *write_text(PyObject *self, PyObject *Py_UNUSED(none)) {
  Question it = {.ask = ask_write};
  return written(self, &it, 1 << 12, true, false);
}

static uint32_t ask_paths(Question *it, uint8_t *buffer, size_t capacity, size_t *count) {
  return calls.paths(it->text, it->length, it->mark, it->mark_length, it->more[0], it->more_length[0], it->more[1],
                     it->more_length[1], buffer, capacity, count);
}

static uint32_t ask_exception_paths(Question *it, uint8_t *buffer, size_t capacity, size_t *count) {
  return calls.exception_paths(it->text, it->length, it->mark, it->mark_length, it->more[0], it->more_length[0],
                               it->more[1], it->more_length[1], buffer, capacity, count);
}

/* Whether the module has the library; else an exception is set. */
static bool has_library(const State *state) {
  if (!state->raises) PyErr_SetString(PyExc_RuntimeError, "the library is not open yet");
  return state->raises != NULL;
}

/* The paths that a question for a tag and the values of three variables is answered by. */
static PyObject *paths_by(PyObject *module, PyObject *arguments, Question it) {
  Py_ssize_t lengths[4];
  if (!has_library(state_of(module)) || !PyArg_ParseTuple(arguments, "y#y#y#y#", &it.text, &lengths[0], &it.mark, &lengths[1],
                                                          &it.more[0], &lengths[2], &it.more[1], &lengths[3]))
    return NULL;
  it.length = (size_t)lengths[0];
  it.mark_length = (size_t)lengths[1];
  it.more_length[0] = (size_t)lengths[2];
  it.more_length[1] = (size_t)lengths[3];
  return written(module, &it, 4096, false, true);
}

static PyObject *paths(PyObject *module, PyObject *arguments) {
  return paths_by(module, arguments, (Question){.ask = ask_paths});
}

static PyObject *exception_paths(PyObject *module, PyObject *arguments) {
  return paths_by(module, arguments, (Question){.ask = ask_exception_paths});
}

/* ---- Loading, and what is left. */

static PyObject *loaded(uint32_t status, size_t file, size_t line, uint32_t cause) {
  return Py_BuildValue("(InnI)", status, (Py_ssize_t)file, (Py_ssize_t)line, cause);
}

static PyObject *load(PyObject *self, PyObject *arguments) {
  unsigned int kind;
  const uint8_t *text;
  Py_ssize_t length;
  size_t line = 0;
  uint32_t cause = 0, status;
  hyphenation own = HYPHENATION_NONE;
  if (!PyArg_ParseTuple(arguments, "Iy#", &kind, &text, &length)) return NULL;
  Py_BEGIN_ALLOW_THREADS
  status = calls.load(kind, text, (size_t)length, &own, &line, &cause);
  Py_END_ALLOW_THREADS
  calls.free(OF(self));
  *OF(self) = own;
  return loaded(status, 0, line, cause);
}

static PyObject *load_dic(PyObject *self, PyObject *arguments) {
  unsigned int kind, left, right;
  const uint8_t *code, *dic;
  Py_ssize_t code_length, length;
  size_t line = 0;
  uint32_t cause = 0, status;
  hyphenation own = HYPHENATION_NONE;
  if (!PyArg_ParseTuple(arguments, "Iy#IIy#", &kind, &code, &code_length, &left, &right, &dic, &length)) return NULL;
  Py_BEGIN_ALLOW_THREADS
  status = calls.load_dic(kind, code, (size_t)code_length, left, right, dic, (size_t)length, &own, &line, &cause);
  Py_END_ALLOW_THREADS
  calls.free(OF(self));
  *OF(self) = own;
  return loaded(status, 0, line, cause);
}

static PyObject *load_patterns(PyObject *self, PyObject *arguments) {
  unsigned int kind, form, left, right;
  const uint8_t *code, *patterns, *exceptions;
  Py_ssize_t code_length, patterns_length, exceptions_length;
  hyphenation_fault fault = {0, 0, 0};
  uint32_t status;
  hyphenation own = HYPHENATION_NONE;
  if (!PyArg_ParseTuple(arguments, "IIy#IIy#y#", &kind, &form, &code, &code_length, &left, &right, &patterns,
                        &patterns_length, &exceptions, &exceptions_length))
    return NULL;
  const hyphenation_patterns files = {
      kind,     form,     code,       (size_t)code_length, left, right, patterns, (size_t)patterns_length,
      exceptions, (size_t)exceptions_length};
  Py_BEGIN_ALLOW_THREADS
  status = calls.load_patterns(&files, &own, &fault);
  Py_END_ALLOW_THREADS
  calls.free(OF(self));
  *OF(self) = own;
  return loaded(status, fault.file, fault.line, fault.cause);
}

static PyObject *share(PyObject *self, PyObject *Py_UNUSED(none)) {
  PyObject *other = PyObject_CallObject((PyObject *)Py_TYPE(self), NULL);
  if (!other) return NULL;
  uint32_t status = calls.share(OF(self), OF(other));
  if (status == HYPHENATION_DONE) return other;
  Py_DECREF(other);
  return fail(self, status);
}

static PyObject *close_handle(PyObject *self, PyObject *Py_UNUSED(none)) {
  calls.free(OF(self));
  Py_RETURN_NONE;
}

static PyObject *edit(PyObject *self, PyObject *arguments) {
  const uint8_t *content;
  Py_ssize_t length;
  if (!PyArg_ParseTuple(arguments, "y#", &content, &length)) return NULL;
  uint32_t status = calls.edit(OF(self), content, (size_t)length);
  if (status != HYPHENATION_DONE) return fail(self, status);
  Py_RETURN_NONE;
}

static PyObject *add_exceptions(PyObject *self, PyObject *arguments) {
  const uint8_t *content;
  Py_ssize_t length;
  size_t line = 0;
  uint32_t cause = 0;
  if (!PyArg_ParseTuple(arguments, "y#", &content, &length)) return NULL;
  uint32_t status = calls.add_exceptions(OF(self), content, (size_t)length, &line, &cause);
  return loaded(status, 0, line, cause);
}

static PyObject *raise_minima(PyObject *self, PyObject *arguments) {
  unsigned char left, right;
  if (!PyArg_ParseTuple(arguments, "bb", &left, &right)) return NULL;
  uint32_t status = calls.raise_minima(OF(self), left, right);
  if (status != HYPHENATION_DONE) return fail(self, status);
  Py_RETURN_NONE;
}

static PyObject *minima(PyObject *self, PyObject *Py_UNUSED(none)) {
  size_t left = 0, right = 0;
  uint32_t status = calls.minima(OF(self), &left, &right);
  return status == HYPHENATION_DONE ? Py_BuildValue("(nn)", (Py_ssize_t)left, (Py_ssize_t)right) : fail(self, status);
}

static PyObject *kind_of(PyObject *module, PyObject *arguments) {
  const uint8_t *content;
  Py_ssize_t length;
  if (!has_library(state_of(module)) || !PyArg_ParseTuple(arguments, "y#", &content, &length)) return NULL;
  return PyLong_FromUnsignedLong(calls.kind_of(content, (size_t)length));
}

static PyObject *cause_message(PyObject *module, PyObject *arguments) {
  unsigned int cause;
  if (!has_library(state_of(module)) || !PyArg_ParseTuple(arguments, "I", &cause)) return NULL;
  return PyUnicode_FromString(calls.cause_message(cause));
}

/* ---- The class and the module. */

static PyObject *new_handle(PyTypeObject *type, PyObject *arguments, PyObject *Py_UNUSED(named)) {
  if (!has_library(PyType_GetModuleState(type)) || !PyArg_ParseTuple(arguments, "")) return NULL;
  /* (All bytes of it are 0: it holds no dictionary.) */
  return ((allocfunc)PyType_GetSlot(type, Py_tp_alloc))(type, 0);
}

static void delete_handle(PyObject *self) {
  PyTypeObject *type = Py_TYPE(self);
  calls.free(OF(self));
  ((freefunc)PyType_GetSlot(type, Py_tp_free))(self);
  Py_DECREF(type);
}

static PyMethodDef methods[] = {
    {"load", load, METH_VARARGS, NULL},
    {"load_dic", load_dic, METH_VARARGS, NULL},
    {"load_patterns", load_patterns, METH_VARARGS, NULL},
    {"share", share, METH_NOARGS, NULL},
    {"close", close_handle, METH_NOARGS, NULL},
    {"edit", edit, METH_VARARGS, NULL},
    {"add_exceptions", add_exceptions, METH_VARARGS, NULL},
    {"raise_minima", raise_minima, METH_VARARGS, NULL},
    {"language", language, METH_NOARGS, NULL},
    {"minima", minima, METH_NOARGS, NULL},
    {"places", places, METH_O, NULL},
    {"positions", positions, METH_O, NULL},
    {"composed_positions", composed_positions, METH_O, NULL},
    {"positions_of", positions_of, METH_O, NULL},
    {"changes", changes, METH_O, NULL},
    {"exception", exception, METH_O, NULL},
    {"values", values, METH_O, NULL},
    {"text", text, METH_VARARGS, NULL},
    {"fill", fill, METH_VARARGS, NULL},
    {"write", write_text, METH_NOARGS, NULL},
    {NULL, NULL, 0, NULL},
};

static PyType_Slot slots[] = {
    {Py_tp_doc, (void *)"A dictionary, or none."},
    {Py_tp_new, (void *)new_handle},
    {Py_tp_dealloc, (void *)delete_handle},
    {Py_tp_methods, methods},
    {0, NULL},
};

static PyType_Spec specification = {
    .name = "hyphenation._extension.Handle",
    .basicsize = sizeof(Handle),
    .flags = Py_TPFLAGS_DEFAULT,
    .slots = slots,
};

/* start(path, fail): opens the library, once in a process. `fail` raises the exception of a status in this interpreter. */
static PyObject *start(PyObject *module, PyObject *arguments) {
  PyObject *path, *function;
  State *state = state_of(module);
  if (!PyArg_ParseTuple(arguments, "O&O", PyUnicode_FSConverter, &path, &function)) return NULL;
  static bool is_open;
  void *library = is_open ? NULL : dlopen(PyBytes_AsString(path), RTLD_NOW | RTLD_LOCAL);
  Py_DECREF(path);
#define FIND(each) (library && (*(void **)&calls.each = dlsym(library, "hyphenation_" #each))) &&
  if (is_open || (CALLS(FIND) true)) {
    is_open = true;
    if (!state->raises) state->raises = Py_NewRef(function);
    Py_RETURN_NONE;
  }
  const char *why = dlerror();
  PyErr_SetString(PyExc_OSError, why ? why : "the library lacks a call");
  return NULL;
}

static PyMethodDef functions[] = {
    {"start", start, METH_VARARGS, NULL},
    {"kind_of", kind_of, METH_VARARGS, NULL},
    {"paths", paths, METH_VARARGS, NULL},
    {"exception_paths", exception_paths, METH_VARARGS, NULL},
    {"cause_message", cause_message, METH_VARARGS, NULL},
    {NULL, NULL, 0, NULL},
};

static int make_module(PyObject *module) {
  PyObject *handle_type = PyType_FromModuleAndSpec(module, &specification, NULL);
  if (!handle_type) return -1;
  int failed = PyModule_AddObjectRef(module, "Handle", handle_type);
  Py_DECREF(handle_type);
  return failed;
}

static int traverse_module(PyObject *module, visitproc visit, void *arg) {
  Py_VISIT(state_of(module)->raises);
  return 0;
}

static int clear_module(PyObject *module) {
  Py_CLEAR(state_of(module)->raises);
  return 0;
}

static void free_module(void *module) { clear_module(module); }

static PyModuleDef_Slot module_slots[] = {
    {Py_mod_exec, (void *)make_module},
    {0, NULL},
};

static PyModuleDef definition = {
    PyModuleDef_HEAD_INIT,
    .m_name = "hyphenation._extension",
    .m_doc = "The calls of the library.",
    .m_size = sizeof(State),
    .m_methods = functions,
    .m_slots = module_slots,
    .m_traverse = traverse_module,
    .m_clear = clear_module,
    .m_free = free_module,
};

PyMODINIT_FUNC PyInit__extension(void) { return PyModuleDef_Init(&definition); }
