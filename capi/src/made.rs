//! What callers get: things that `zigrunk_free` frees, with the texts that they have.
use crate::given::{zigrunk_text, zigrunk_texts};
use call::{Error, displayed};
use std::ffi::{c_char, c_void};
use std::{iter, mem, ptr};

/// What `zigrunk_free` needs. Leave it alone.
#[repr(C)]
pub struct zigrunk_made {
    /// Frees it.
    pub free: Option<unsafe extern "C" fn(*mut c_void)>,
}

/// Why a function refuses.
#[repr(C)]
pub struct zigrunk_error {
    /// For `zigrunk_free`.
    pub made: zigrunk_made,
    /// `ZIGRUNK_OUT_OF_MEMORY` ..
    pub status: i32,
    /// The input that is at fault, or 0.
    pub input: u32,
    /// The line of a dry run that is at fault, from 1, or 0.
    pub line: usize,
    /// Why, for people.
    pub message: zigrunk_text,
}

/// Some texts.
#[repr(C)]
pub struct zigrunk_answer {
    /// For `zigrunk_free`.
    pub made: zigrunk_made,
    /// The texts.
    pub texts: zigrunk_texts,
}

/// A thing, and what its pointers point to. The thing is first, so a pointer to it is one to all.
#[repr(C)]
struct Whole<T> {
    thing: T,
    room: Room,
}

/// What frees a thing that `give` gives: its first field.
pub(crate) const fn freed<T>() -> zigrunk_made {
    zigrunk_made { free: Some(free_whole::<T>) }
}

/// Puts a thing that begins with `freed` on the heap, for the caller.
pub(crate) fn give<T>(thing: T, room: Room) -> Result<*mut T, Error> {
    let mut place = Vec::new();
    place.try_reserve_exact(1)?;
    place.push(Whole { thing, room });
    Ok(Box::into_raw(place.into_boxed_slice()).cast())
}

/// # Safety
///
/// `give` has given it, and nobody uses it any more.
unsafe extern "C" fn free_whole<T>(thing: *mut c_void) {
    let one = ptr::slice_from_raw_parts_mut(thing.cast::<Whole<T>>(), 1);
    // SAFETY: the caller ensures it; it was a boxed slice of one.
    let mut whole = unsafe { Box::from_raw(one) };
    // (malloc has less to do if large blocks go first)
    whole[0].room = Room::default();
}

/// Frees a thing that a function has made. Nothing happens to NULL.
#[no_mangle]
pub unsafe extern "C" fn zigrunk_free(thing: *mut c_void) {
    // SAFETY: each thing begins with this.
    let made = unsafe { thing.cast::<zigrunk_made>().as_ref() };
    if let Some(free) = made.and_then(|made| made.free) {
        // SAFETY: the caller ensures that nobody uses it any more.
        unsafe { free(thing) }
    }
}

/// Memory in pieces that never move. Each is twice as large as the one before, since large blocks cost malloc
/// most.
struct Pieces<T>(Vec<T>, Vec<Vec<T>>);

impl<T> Pieces<T> {
    /// A piece with room for so many elements.
    fn room(&mut self, count: usize) -> Result<&mut Vec<T>, Error> {
        const PIECE: usize = 1 << 13;
        let held = self.0.capacity();
        if held - self.0.len() < count {
            let mut piece = Vec::new();
            piece.try_reserve_exact(count.max(PIECE / size_of::<T>()).max(2 * held))?;
            self.1.try_reserve(held.min(1))?;
            let full = mem::replace(&mut self.0, piece);
            self.1.extend((held > 0).then_some(full));
        }
        Ok(&mut self.0)
    }
}

impl<T> Default for Pieces<T> {
    fn default() -> Self {
        Pieces(Vec::new(), Vec::new())
    }
}

/// The texts and numbers that a thing points to.
#[derive(Default)]
pub(crate) struct Room {
    bytes: Pieces<u8>,
    items: Pieces<*const c_char>,
    numbers: Pieces<usize>,
}

impl Room {
    /// A text, and a NUL.
    pub(crate) fn text(&mut self, text: impl AsRef<[u8]>) -> Result<zigrunk_text, Error> {
        let text = text.as_ref();
        let piece = self.bytes.room(text.len() + 1)?;
        let start = piece.len();
        piece.extend_from_slice(text);
        piece.push(0);
        Ok(zigrunk_text { bytes: piece[start..].as_ptr().cast(), length: text.len() })
    }

    pub(crate) fn optional(&mut self, text: Option<&str>) -> Result<zigrunk_text, Error> {
        text.map_or(Ok(zigrunk_text { bytes: ptr::null(), length: 0 }), |text| self.text(text))
    }

    /// A list of texts, each of parts, and a NULL.
    pub(crate) fn list<'a, const N: usize>(
        &mut self,
        texts: impl Iterator<Item = [&'a [u8]; N]> + Clone,
    ) -> Result<zigrunk_texts, Error> {
        let size = |parts: [&[u8]; N]| parts.iter().map(|part| part.len()).sum::<usize>() + 1;
        let (count, total) =
            texts.clone().fold((0, 0), |(count, total), parts| (count + 1, total + size(parts)));
        let (bytes, items, lengths) =
            (self.bytes.room(total)?, self.items.room(count + 1)?, self.numbers.room(count)?);
        let (first, first_length) = (items.len(), lengths.len());
        for parts in texts {
            let start = bytes.len();
            for part in parts {
                bytes.extend_from_slice(part);
            }
            lengths.push(bytes.len() - start);
            bytes.push(0);
            items.push(bytes[start..].as_ptr().cast());
        }
        items.push(ptr::null());
        Ok(zigrunk_texts { items: items[first..].as_ptr(), lengths: lengths[first_length..].as_ptr(), count })
    }

    pub(crate) fn texts<'a, T: AsRef<[u8]> + ?Sized + 'a>(
        &mut self,
        texts: impl Iterator<Item = &'a T> + Clone,
    ) -> Result<zigrunk_texts, Error> {
        self.list(texts.map(|text| [text.as_ref()]))
    }

    /// Variables as `NAME=VALUE`, and others that are so already.
    pub(crate) fn environment<'a>(
        &mut self,
        variables: impl Iterator<Item = (&'a str, &'a str)> + Clone,
        others: &'a [Vec<u8>],
    ) -> Result<zigrunk_texts, Error> {
        let variables = variables.map(|(name, value)| [name.as_bytes(), b"=", value.as_bytes()]);
        self.list(variables.chain(others.iter().map(|other| [other.as_slice(), b"", b""])))
    }

    pub(crate) fn numbers(&mut self, numbers: &[usize]) -> Result<*const usize, Error> {
        let piece = self.numbers.room(numbers.len())?;
        let start = piece.len();
        piece.extend_from_slice(numbers);
        Ok(piece[start..].as_ptr())
    }
}

struct Static(zigrunk_error);

// SAFETY: nothing changes it.
unsafe impl Sync for Static {}

// (cbindgen of Debian 12 doesn't read a literal of C)
const LACK_TEXT: [u8; 14] = *b"out of memory\0";

/// The error that needs no memory.
static LACK: Static = Static(zigrunk_error {
    made: zigrunk_made { free: None },
    status: 1,
    input: 0,
    line: 0,
    message: zigrunk_text { bytes: LACK_TEXT.as_ptr().cast(), length: 13 },
});

/// An error for a caller, unless memory lacks.
fn error_of(error: &Error) -> Result<*mut zigrunk_error, Error> {
    let mut room = Room::default();
    let message = room.text(displayed(error)?)?;
    let (input, line) = error.place().map_or((0, 0), |place| (place.input.number(), place.line.unwrap_or(0)));
    give(zigrunk_error { made: freed::<zigrunk_error>(), status: error.status(), input, line, message }, room)
}

/// Hands what is made over, and says the status.
///
/// # Safety
///
/// Both pointers are NULL or valid.
pub(crate) unsafe fn answer<T>(
    made: *mut *mut T,
    error: *mut *mut zigrunk_error,
    thing: impl FnOnce() -> Result<*mut T, Error>,
) -> i32 {
    let (thing, why) = match thing() {
        Ok(thing) => (thing, ptr::null_mut()),
        Err(why) => (ptr::null_mut(), error_of(&why).unwrap_or(ptr::addr_of!(LACK.0).cast_mut())),
    };
    // SAFETY: the caller ensures it; an error was just made, or is static.
    unsafe {
        let status = why.as_ref().map_or(0, |why| why.status);
        if let Some(made) = made.as_mut() {
            *made = thing;
        }
        match error.as_mut() {
            Some(error) => *error = why,
            None => zigrunk_free(why.cast()),
        }
        status
    }
}

/// An answer of texts.
pub(crate) fn texts<'a, T: AsRef<[u8]> + ?Sized + 'a>(
    texts: impl Iterator<Item = &'a T> + Clone,
) -> Result<*mut zigrunk_answer, Error> {
    let mut room = Room::default();
    let texts = room.texts(texts)?;
    give(zigrunk_answer { made: freed::<zigrunk_answer>(), texts }, room)
}

/// An answer of one text.
pub(crate) fn text(of: impl AsRef<[u8]>) -> Result<*mut zigrunk_answer, Error> {
    texts(iter::once(of.as_ref()))
}
