//! The calls as `hyphenation.h` declares them, and safe functions over them. All that is unsafe is in this file. It
//! keeps to what that header says at its top: a handle is given to one call at a time, no pointer is null, and what a
//! call writes to overlaps nothing else that it is handed.
#![allow(unsafe_code)]

use std::ffi::{c_char, c_void, CStr};
use std::ptr;

/// A handle, or none. It frees what it holds.
#[repr(C)]
pub struct Raw {
    at: *mut c_void,
    held: bool,
}

impl Raw {
    /// The handle without a dictionary.
    pub const NONE: Raw = Raw { at: ptr::null_mut(), held: false };

    /// Whether it holds a dictionary.
    pub fn is_held(&self) -> bool {
        self.held
    }
}

// SAFETY: a handle may go to another thread, with its dictionary. This is proved of the crate hyphenation_c.
unsafe impl Send for Raw {}

impl Drop for Raw {
    fn drop(&mut self) {
        // SAFETY: the handle is as the last call left it, and is lent only to this call.
        unsafe { hyphenation_free(self) }
    }
}

/// A break: its place, the range that it changes, and the lengths of the texts that take the range's place.
#[repr(C)]
#[derive(Clone, Copy, Default)]
pub struct RawChange {
    pub place: usize,
    pub begin: usize,
    pub end: usize,
    pub before: usize,
    pub after: usize,
}

/// A number with a change, or with none: a place or a value, and of the change how many bytes before the place and after it
/// it takes, and of its text how many bytes are before the break, and the length.
#[repr(C)]
#[derive(Clone, Copy, Default)]
pub struct RawNumbered {
    pub number: usize,
    pub changed: usize,
    pub left: usize,
    pub right: usize,
    pub breakpoint: usize,
    pub length: usize,
}

#[repr(C)]
struct RawPatterns {
    kind: u32,
    form: u32,
    language: *const u8,
    language_length: usize,
    left: u32,
    right: u32,
    patterns: *const u8,
    patterns_length: usize,
    exceptions: *const u8,
    exceptions_length: usize,
}

#[repr(C)]
#[derive(Default)]
struct RawFault {
    file: usize,
    line: usize,
    cause: u32,
}

const DONE: u32 = 0;
const NO_ROOM: u32 = 1;
const OUT_OF_MEMORY: u32 = 2;
const REFUSED: u32 = 5;
const NO_LANGUAGE: u32 = 7;
const NO_MINIMA: u32 = 9;
const NO_EXCEPTION: u32 = 10;

/// The kinds of dictionaries.
pub const STANDARD: u32 = 0;
pub const EXTENDED: u32 = 1;

/// The forms of files of patterns: a TeX file, and a plain one.
pub const TEX: u32 = 0;
pub const PLAIN: u32 = 1;

extern "C" {
    fn hyphenation_version() -> *const c_char;
    fn hyphenation_status_message(status: u32) -> *const c_char;
    fn hyphenation_cause_message(cause: u32) -> *const c_char;
    fn hyphenation_kind_of(text: *const u8, length: usize) -> u32;
    fn hyphenation_load(
        kind: u32,
        text: *const u8,
        length: usize,
        handle: *mut Raw,
        line: *mut usize,
        cause: *mut u32,
    ) -> u32;
    fn hyphenation_load_dic(
        kind: u32,
        language: *const u8,
        language_length: usize,
        left: u32,
        right: u32,
        bytes: *const u8,
        length: usize,
        handle: *mut Raw,
        line: *mut usize,
        cause: *mut u32,
    ) -> u32;
    fn hyphenation_load_patterns(files: *const RawPatterns, handle: *mut Raw, fault: *mut RawFault) -> u32;
    fn hyphenation_free(handle: *mut Raw);
    fn hyphenation_share(handle: *mut Raw, other: *mut Raw) -> u32;
    fn hyphenation_edit(handle: *mut Raw, edit: *const u8, length: usize) -> u32;
    fn hyphenation_add_exceptions(
        handle: *mut Raw,
        text: *const u8,
        length: usize,
        line: *mut usize,
        cause: *mut u32,
    ) -> u32;
    fn hyphenation_raise_minima(handle: *mut Raw, left: u8, right: u8) -> u32;
    fn hyphenation_language(handle: *mut Raw, code: *mut u8, capacity: usize, count: *mut usize) -> u32;
    fn hyphenation_minima(handle: *mut Raw, left: *mut usize, right: *mut usize) -> u32;
    fn hyphenation_values(
        handle: *mut Raw,
        word: *const u8,
        length: usize,
        values: *mut u8,
        capacity: usize,
        count: *mut usize,
    ) -> u32;
    fn hyphenation_breaks(
        handle: *mut Raw,
        word: *const u8,
        length: usize,
        places: *mut usize,
        capacity: usize,
        count: *mut usize,
    ) -> u32;
    fn hyphenation_composed_breaks(
        handle: *mut Raw,
        word: *const u8,
        length: usize,
        places: *mut usize,
        capacity: usize,
        count: *mut usize,
    ) -> u32;
    fn hyphenation_breaks_of_words(
        handle: *mut Raw,
        text: *const u8,
        length: usize,
        ends: *const usize,
        words: usize,
        places: *mut usize,
        capacity: usize,
        count: *mut usize,
        place_ends: *mut usize,
        place_ends_capacity: usize,
        place_ends_count: *mut usize,
    ) -> u32;
    fn hyphenation_changes(
        handle: *mut Raw,
        word: *const u8,
        length: usize,
        changes: *mut RawChange,
        capacity: usize,
        count: *mut usize,
        texts: *mut u8,
        texts_capacity: usize,
        texts_count: *mut usize,
    ) -> u32;
    fn hyphenation_exception(
        handle: *mut Raw,
        word: *const u8,
        length: usize,
        changes: *mut RawNumbered,
        capacity: usize,
        count: *mut usize,
        texts: *mut u8,
        texts_capacity: usize,
        texts_count: *mut usize,
    ) -> u32;
    fn hyphenation_scores(
        handle: *mut Raw,
        word: *const u8,
        length: usize,
        changes: *mut RawNumbered,
        capacity: usize,
        count: *mut usize,
        texts: *mut u8,
        texts_capacity: usize,
        texts_count: *mut usize,
    ) -> u32;
    fn hyphenation_text(
        handle: *mut Raw,
        text: *const u8,
        length: usize,
        mark: *const u8,
        mark_length: usize,
        buffer: *mut u8,
        capacity: usize,
        count: *mut usize,
    ) -> u32;
    fn hyphenation_fill(
        handle: *mut Raw,
        text: *const u8,
        length: usize,
        columns: usize,
        buffer: *mut u8,
        capacity: usize,
        count: *mut usize,
    ) -> u32;
    fn hyphenation_write(handle: *mut Raw, buffer: *mut u8, capacity: usize, count: *mut usize) -> u32;
    fn hyphenation_paths(
        tag: *const u8,
        tag_length: usize,
        path: *const u8,
        path_length: usize,
        data_home: *const u8,
        data_home_length: usize,
        home: *const u8,
        home_length: usize,
        buffer: *mut u8,
        capacity: usize,
        count: *mut usize,
    ) -> u32;
    fn hyphenation_exception_paths(
        tag: *const u8,
        tag_length: usize,
        path: *const u8,
        path_length: usize,
        data_home: *const u8,
        data_home_length: usize,
        home: *const u8,
        home_length: usize,
        buffer: *mut u8,
        capacity: usize,
        count: *mut usize,
    ) -> u32;
}

/// Why a call is not done.
#[derive(Clone, Copy, Debug, PartialEq, Eq)]
pub enum Failure {
    /// Memory was refused.
    Memory,
    /// The text, the file, the list or the edit is faulty: the number of the file, the line, counted from 1, and the number
    /// of its cause. An edit has none of them.
    Refused { file: usize, line: usize, cause: u32 },
    /// A minimum is neither given nor in the head of the file.
    NoMinima,
    /// The word is no exception.
    NoException,
}

// Whether a call is done. No status comes of a handle without a dictionary, of a text that is not UTF-8, or of ends that
// are none: the functions of this file never hand these over.
fn checked(status: u32, fault: RawFault) -> Result<(), Failure> {
    match status {
        DONE => Ok(()),
        OUT_OF_MEMORY => Err(Failure::Memory),
        REFUSED => Err(Failure::Refused { file: fault.file, line: fault.line, cause: fault.cause }),
        NO_MINIMA => Err(Failure::NoMinima),
        NO_EXCEPTION => Err(Failure::NoException),
        _ => unreachable!("{}", status_message(status)),
    }
}

// A static text of the library.
fn static_text(text: *const c_char) -> &'static str {
    // SAFETY: the calls of messages and of the version return a static text that a NUL ends.
    let text = unsafe { CStr::from_ptr(text) };
    text.to_str().expect("the library writes UTF-8")
}

/// The version of the library.
pub fn version() -> &'static str {
    // SAFETY: the call has no argument.
    static_text(unsafe { hyphenation_version() })
}

/// The message of a status.
fn status_message(status: u32) -> &'static str {
    // SAFETY: each number is allowed.
    static_text(unsafe { hyphenation_status_message(status) })
}

/// The message of status 2.
pub fn memory_message() -> &'static str {
    status_message(OUT_OF_MEMORY)
}

/// The message of status 9.
pub fn no_minima_message() -> &'static str {
    status_message(NO_MINIMA)
}

/// The message of a cause.
pub fn cause_message(cause: u32) -> &'static str {
    // SAFETY: each number is allowed.
    static_text(unsafe { hyphenation_cause_message(cause) })
}

/// The number of the kind that the first line of a dictionary text names; 2 if it names none.
pub fn kind_of(text: &[u8]) -> u32 {
    // SAFETY: the pointer and the length are those of a slice.
    unsafe { hyphenation_kind_of(text.as_ptr(), text.len()) }
}

/// Loads a dictionary of a kind from its text.
pub fn load(kind: u32, text: &[u8]) -> Result<Raw, Failure> {
    let (mut raw, mut fault) = (Raw::NONE, RawFault::default());
    // SAFETY: the text is a slice, and all that is written to is local.
    let status =
        unsafe { hyphenation_load(kind, text.as_ptr(), text.len(), &mut raw, &mut fault.line, &mut fault.cause) };
    checked(status, fault).map(|()| raw)
}

/// Makes a dictionary of a kind from a `.dic`; a minimum above 255 is the one that the file says.
pub fn load_dic(kind: u32, language: &str, minima: (u32, u32), dic: &[u8]) -> Result<Raw, Failure> {
    let (mut raw, mut fault) = (Raw::NONE, RawFault::default());
    // SAFETY: the code and the file are slices, and all that is written to is local.
    let status = unsafe {
        hyphenation_load_dic(
            kind,
            language.as_ptr(),
            language.len(),
            minima.0,
            minima.1,
            dic.as_ptr(),
            dic.len(),
            &mut raw,
            &mut fault.line,
            &mut fault.cause,
        )
    };
    debug_assert_ne!(status, NO_LANGUAGE, "a language has a code");
    checked(status, fault).map(|()| raw)
}

/// Makes a dictionary of a kind from a file of patterns of a form, and a plain file of exceptions. A minimum above 255 is
/// the one in the head of a TeX file.
pub fn load_patterns(
    (kind, form): (u32, u32),
    language: &str,
    minima: (u32, u32),
    patterns: &[u8],
    exceptions: &[u8],
) -> Result<Raw, Failure> {
    let (mut raw, mut fault) = (Raw::NONE, RawFault::default());
    let files = RawPatterns {
        kind,
        form,
        language: language.as_ptr(),
        language_length: language.len(),
        left: minima.0,
        right: minima.1,
        patterns: patterns.as_ptr(),
        patterns_length: patterns.len(),
        exceptions: exceptions.as_ptr(),
        exceptions_length: exceptions.len(),
    };
    // SAFETY: the fields are those of slices that live on, and all that is written to is local.
    let status = unsafe { hyphenation_load_patterns(&files, &mut raw, &mut fault) };
    checked(status, fault).map(|()| raw)
}

// Lets a call fill a buffer, which is made longer as often as the call asks for it. The call gets a buffer for as
// many items as it is told, and a count. It returns a status, and with DONE it has filled the front of the buffer with
// as many items as it wrote into the count.
fn filled<T: Copy>(room: usize, mut call: impl FnMut(*mut T, usize, &mut usize) -> u32) -> Result<Vec<T>, Failure> {
    let mut items: Vec<T> = Vec::with_capacity(room);
    loop {
        let mut count = 0;
        let status = call(items.as_mut_ptr(), items.capacity(), &mut count);
        if status == NO_ROOM {
            items.reserve(count);
            continue;
        }
        checked(status, RawFault::default())?;
        assert!(count <= items.capacity());
        // SAFETY: the call has written that many items, and the buffer has room for them.
        unsafe { items.set_len(count) };
        return Ok(items);
    }
}

// A call that writes items for a word, and their texts, each into a buffer with its room and its count.
type CallForItems<T> = unsafe extern "C" fn(
    *mut Raw,
    *const u8,
    usize,
    *mut T,
    usize,
    *mut usize,
    *mut u8,
    usize,
    *mut usize,
) -> u32;

// The same of two buffers: each call tells both counts.
fn both_filled<T: Copy, U: Copy>(
    room: (usize, usize),
    mut call: impl FnMut((*mut T, usize, &mut usize), (*mut U, usize, &mut usize)) -> u32,
) -> Result<(Vec<T>, Vec<U>), Failure> {
    let (mut items, mut others) = (Vec::with_capacity(room.0), Vec::with_capacity(room.1));
    loop {
        let (mut count, mut number) = (0, 0);
        let first = (items.as_mut_ptr(), items.capacity(), &mut count);
        let status = call(first, (others.as_mut_ptr(), others.capacity(), &mut number));
        if status == NO_ROOM {
            items.reserve(count);
            others.reserve(number);
            continue;
        }
        checked(status, RawFault::default())?;
        assert!(count <= items.capacity() && number <= others.capacity());
        // SAFETY: the call has written that many items, and each buffer has room for them.
        unsafe {
            items.set_len(count);
            others.set_len(number);
        }
        return Ok((items, others));
    }
}

fn text_of(bytes: Vec<u8>) -> String {
    String::from_utf8(bytes).expect("the library writes UTF-8")
}

/// What is looked for in the folders of the search.
#[derive(Clone, Copy)]
pub enum Sought {
    /// A dictionary text.
    Dictionary,
    /// A list of exceptions.
    Exceptions,
}

/// The paths at which the dictionary of a language is looked for, or its list of exceptions, each with a NUL behind it.
pub fn paths(sought: Sought, tag: &str, path: &str, data_home: &str, home: &str) -> Result<String, Failure> {
    let call = match sought {
        Sought::Dictionary => hyphenation_paths,
        Sought::Exceptions => hyphenation_exception_paths,
    };
    // SAFETY: the four texts are slices, and the buffer and the count are local.
    let bytes = filled(1 << 12, |buffer, room, count| unsafe {
        call(
            tag.as_ptr(),
            tag.len(),
            path.as_ptr(),
            path.len(),
            data_home.as_ptr(),
            data_home.len(),
            home.as_ptr(),
            home.len(),
            buffer,
            room,
            count,
        )
    })?;
    Ok(text_of(bytes))
}

impl Raw {
    /// The same dictionary in another handle. Nothing of it is copied.
    pub fn share(&mut self) -> Result<Raw, Failure> {
        let mut other = Raw::NONE;
        // SAFETY: both handles are as the last call left them, and are lent only to this call.
        let status = unsafe { hyphenation_share(self, &mut other) };
        checked(status, RawFault::default()).map(|()| other)
    }

    /// Edits the exceptions.
    pub fn edit(&mut self, edit: &str) -> Result<(), Failure> {
        // SAFETY: the handle is as the last call left it, and is lent only to this call; the edit is a slice.
        checked(unsafe { hyphenation_edit(self, edit.as_ptr(), edit.len()) }, RawFault::default())
    }

    /// Adds the exceptions of a list.
    pub fn add_exceptions(&mut self, text: &[u8]) -> Result<(), Failure> {
        let mut fault = RawFault::default();
        // SAFETY: the handle is as the last call left it, and is lent only to this call; the text is a slice, and the line and
        // the cause are local.
        let status = unsafe {
            hyphenation_add_exceptions(self, text.as_ptr(), text.len(), &mut fault.line, &mut fault.cause)
        };
        checked(status, fault)
    }

    /// Raises the minima to at least these.
    pub fn raise_minima(&mut self, left: u8, right: u8) -> Result<(), Failure> {
        // SAFETY: the handle is as the last call left it, and is lent only to this call.
        checked(unsafe { hyphenation_raise_minima(self, left, right) }, RawFault::default())
    }

    /// The code of the language.
    pub fn language(&mut self) -> Result<String, Failure> {
        // SAFETY: the handle is lent only to this call, and the buffer and the count are local.
        let code = filled(32, |code, room, count| unsafe { hyphenation_language(self, code, room, count) })?;
        Ok(text_of(code))
    }

    /// The least numbers of characters before the first break of a word and after its last one.
    pub fn minima(&mut self) -> (usize, usize) {
        let (mut left, mut right) = (0, 0);
        // SAFETY: the handle is lent only to this call, and both numbers are local.
        let status = unsafe { hyphenation_minima(self, &mut left, &mut right) };
        debug_assert_eq!(status, DONE, "a dictionary has minima");
        (left, right)
    }

    /// The places of a word's breaks.
    pub fn breaks(&mut self, word: &str) -> Result<Vec<usize>, Failure> {
        // SAFETY: the handle is lent only to this call, the word is a slice, and the buffer and the count are local.
        filled(8, |places, room, count| unsafe {
            hyphenation_breaks(self, word.as_ptr(), word.len(), places, room, count)
        })
    }

    /// The places of a word's breaks, as its NFC is broken.
    pub fn composed_breaks(&mut self, word: &str) -> Result<Vec<usize>, Failure> {
        // SAFETY: the handle is lent only to this call, the word is a slice, and the buffer and the count are local.
        filled(8, |places, room, count| unsafe {
            hyphenation_composed_breaks(self, word.as_ptr(), word.len(), places, room, count)
        })
    }

    /// The places of the breaks of words, one word after the other, and the end of each word's places.
    pub fn breaks_of_words(&mut self, words: &[&str]) -> Result<(Vec<usize>, Vec<usize>), Failure> {
        let text = words.concat();
        let ends: Vec<usize> = words
            .iter()
            .scan(0, |end, word| {
                *end += word.len();
                Some(*end)
            })
            .collect();
        both_filled((text.len() / 4 + 16, words.len()), |places, place_ends| {
            // SAFETY: the handle is lent only to this call, the text and the ends are slices, and the buffers and the
            // counts are local.
            unsafe {
                hyphenation_breaks_of_words(
                    self,
                    text.as_ptr(),
                    text.len(),
                    ends.as_ptr(),
                    ends.len(),
                    places.0,
                    places.1,
                    places.2,
                    place_ends.0,
                    place_ends.1,
                    place_ends.2,
                )
            }
        })
    }

    /// The values of a word's places, from place 1 on.
    pub fn values(&mut self, word: &str) -> Result<Vec<u8>, Failure> {
        // SAFETY: the handle is lent only to this call, the word is a slice, and the buffer and the count are local.
        filled(word.len(), |values, room, count| unsafe {
            hyphenation_values(self, word.as_ptr(), word.len(), values, room, count)
        })
    }

    /// The items that a call writes for a word, and their texts, one after the other. There is room for that number of items at first.
    fn items_of<T: Copy>(&mut self, call: CallForItems<T>, word: &str, room: usize) -> Result<(Vec<T>, String), Failure> {
        let (items, texts) = both_filled((room, 32), |items, texts| {
            // SAFETY: the handle is lent only to this call, the word is a slice, and the buffers and the counts are local.
            unsafe {
                call(self, word.as_ptr(), word.len(), items.0, items.1, items.2, texts.0, texts.1, texts.2)
            }
        })?;
        Ok((items, text_of(texts)))
    }

    /// The breaks of a word with their changes, and the texts of these, one after the other.
    pub fn changes(&mut self, word: &str) -> Result<(Vec<RawChange>, String), Failure> {
        self.items_of(hyphenation_changes, word, 8)
    }

    /// The breaks that are listed for a word, with their changes, and the texts of these, one after the other; none if the
    /// word is no exception.
    pub fn exception(&mut self, word: &str) -> Result<Option<(Vec<RawNumbered>, String)>, Failure> {
        match self.items_of(hyphenation_exception, word, 8) {
            Ok(listed) => Ok(Some(listed)),
            Err(Failure::NoException) => Ok(None),
            Err(failure) => Err(failure),
        }
    }

    /// The values of a word's places, from place 1 on, with their changes, and the texts of these, one after the other.
    pub fn scores(&mut self, word: &str) -> Result<(Vec<RawNumbered>, String), Failure> {
        self.items_of(hyphenation_scores, word, word.len())
    }

    /// A text with a mark at each break of its words.
    pub fn marked(&mut self, text: &str, mark: &str) -> Result<String, Failure> {
        // SAFETY: the handle is lent only to this call, the texts are slices, and the buffer and the count are local.
        let bytes = filled(text.len() + text.len() / 2 + 16, |buffer, room, count| unsafe {
            hyphenation_text(self, text.as_ptr(), text.len(), mark.as_ptr(), mark.len(), buffer, room, count)
        })?;
        Ok(text_of(bytes))
    }

    /// The lines of a text, each with a line feed after it. The dictionary is a standard one.
    pub fn lines(&mut self, text: &str, columns: usize) -> Result<String, Failure> {
        // SAFETY: the handle is lent only to this call, the text is a slice, and the buffer and the count are local.
        let bytes = filled(text.len() + text.len() / 8 + 16, |buffer, room, count| unsafe {
            hyphenation_fill(self, text.as_ptr(), text.len(), columns, buffer, room, count)
        })?;
        Ok(text_of(bytes))
    }

    /// The canonical text.
    pub fn canonical(&mut self) -> Result<String, Failure> {
        // SAFETY: the handle is lent only to this call, and the buffer and the count are local.
        let bytes = filled(1 << 12, |buffer, room, count| unsafe { hyphenation_write(self, buffer, room, count) })?;
        Ok(text_of(bytes))
    }
}
