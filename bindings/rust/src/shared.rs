//! A dictionary that any number of threads may ask at the same time.

use crate::calls::{Failure, Raw};
use std::cell::Cell;
use std::sync::atomic::{AtomicUsize, Ordering};
use std::sync::{Mutex, MutexGuard, PoisonError, TryLockError};

// A handle is given to one call at a time. So a dictionary has one handle for each thread that asks it, up to this many; a
// thread that finds them all in use makes one for its call.
const HANDLES: usize = 16;

// A handle, alone in its cache line, so that threads with different handles do not slow one another down.
#[repr(align(64))]
struct Place(Mutex<Raw>);

/// A dictionary, with as many handles of it as threads have asked it at once.
///
/// No call that asks waits while another one asks. Only the making of a handle is done by one thread after the other: it
/// asks for a small block of memory, and nothing of the dictionary is copied.
pub struct Shared {
    first: Mutex<Raw>,
    others: Box<[Place]>,
}

thread_local! {
    // The number of this thread, by which it begins with a handle that no other thread is likely to use.
    static NUMBER: Cell<usize> = const { Cell::new(usize::MAX) };
}

fn thread_number() -> usize {
    static NEXT: AtomicUsize = AtomicUsize::new(0);
    NUMBER.with(|number| {
        if number.get() == usize::MAX {
            number.set(NEXT.fetch_add(1, Ordering::Relaxed) % HANDLES);
        }
        number.get()
    })
}

// A lock is as good where a thread has panicked with it: each call leaves the handle whole.
fn locked(raw: &Mutex<Raw>) -> MutexGuard<'_, Raw> {
    raw.lock().unwrap_or_else(PoisonError::into_inner)
}

// The handle of a place, if no call uses it.
fn free_at(place: &Place) -> Option<MutexGuard<'_, Raw>> {
    match place.0.try_lock() {
        Ok(raw) => Some(raw),
        Err(TryLockError::Poisoned(error)) => Some(error.into_inner()),
        Err(TryLockError::WouldBlock) => None,
    }
}

fn inside(raw: &mut Mutex<Raw>) -> &mut Raw {
    raw.get_mut().unwrap_or_else(PoisonError::into_inner)
}

impl Shared {
    /// The dictionary of a handle that holds one.
    pub fn of(raw: Raw) -> Shared {
        let others = (0..HANDLES).map(|_| Place(Mutex::new(Raw::NONE))).collect();
        Shared { first: Mutex::new(raw), others }
    }

    /// Asks the dictionary.
    pub fn ask<T>(&self, ask: impl FnOnce(&mut Raw) -> Result<T, Failure>) -> Result<T, Failure> {
        let number = thread_number();
        for turn in 0..HANDLES {
            let Some(mut raw) = free_at(&self.others[(number + turn) % HANDLES]) else {
                continue;
            };
            if !raw.is_held() {
                *raw = self.another()?;
            }
            return ask(&mut raw);
        }
        ask(&mut self.another()?)
    }

    /// Changes the dictionary. Clones of it stay as they are.
    pub fn change<T>(&mut self, change: impl FnOnce(&mut Raw) -> Result<T, Failure>) -> Result<T, Failure> {
        // With only one handle it is changed in its place, and not copied.
        for place in &mut self.others {
            *inside(&mut place.0) = Raw::NONE;
        }
        change(inside(&mut self.first))
    }

    /// A handle of the same dictionary.
    pub fn another(&self) -> Result<Raw, Failure> {
        locked(&self.first).share()
    }
}
