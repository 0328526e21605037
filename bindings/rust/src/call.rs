//! The call of libsewarqo. `sewarqo.h` tells each field, and what the call returns.

#[cfg(own_heap)]
use crate::heap::with_region;
use std::marker::PhantomData;
use std::mem::MaybeUninit;
use std::slice;

/// Values that the library is lent.
#[repr(C)]
#[derive(Clone, Copy)]
pub(crate) struct Lent<'a, T> {
    values: *const T,
    len: usize,
    lifetime: PhantomData<&'a [T]>,
}

// They are as a reference to the values.
unsafe impl<T: Sync> Send for Lent<'_, T> {}
unsafe impl<T: Sync> Sync for Lent<'_, T> {}

impl<'a, T> From<&'a [T]> for Lent<'a, T> {
    fn from(values: &'a [T]) -> Lent<'a, T> {
        Lent { values: values.as_ptr(), len: values.len(), lifetime: PhantomData }
    }
}

/// A text in UTF-8.
pub(crate) type Text<'a> = Lent<'a, u8>;

impl<'a> From<&'a str> for Text<'a> {
    fn from(text: &'a str) -> Text<'a> {
        Text::from(text.as_bytes())
    }
}

impl<'a> From<&'a String> for Text<'a> {
    fn from(text: &'a String) -> Text<'a> {
        Text::from(text.as_str())
    }
}

#[repr(C)]
#[derive(Clone, Copy)]
pub(crate) struct OptionalText<'a> {
    text: Text<'a>,
    is_given: u32,
}

impl<'a> From<Option<Text<'a>>> for OptionalText<'a> {
    fn from(text: Option<Text<'a>>) -> OptionalText<'a> {
        OptionalText { text: text.unwrap_or(Text::from("")), is_given: text.is_some().into() }
    }
}

#[repr(C)]
#[derive(Clone, Copy)]
pub(crate) struct GivenSource<'a> {
    pub(crate) name: OptionalText<'a>,
    pub(crate) text: Text<'a>,
    pub(crate) line_offset: usize,
}

#[repr(C)]
#[derive(Clone, Copy)]
pub(crate) struct GivenLabel<'a> {
    pub(crate) source: usize,
    pub(crate) start: usize,
    pub(crate) end: usize,
    pub(crate) message: OptionalText<'a>,
    pub(crate) color: u32,
    pub(crate) order: i32,
    pub(crate) priority: i32,
}

#[repr(C)]
#[derive(Clone, Copy)]
pub(crate) struct GivenReport<'a> {
    pub(crate) kind: u32,
    pub(crate) kind_color: u32,
    pub(crate) kind_name: Text<'a>,
    pub(crate) code: OptionalText<'a>,
    pub(crate) message: Text<'a>,
    pub(crate) source: usize,
    pub(crate) start: usize,
    pub(crate) labels: Lent<'a, GivenLabel<'a>>,
    pub(crate) helps: Lent<'a, Text<'a>>,
    pub(crate) notes: Lent<'a, Text<'a>>,
    pub(crate) flags: u32,
    pub(crate) attach: u32,
    pub(crate) tab_width: usize,
    pub(crate) context_lines: usize,
    pub(crate) width: usize,
}

#[repr(C)]
pub(crate) struct GivenEdit<'a> {
    pub(crate) start: usize,
    pub(crate) end: usize,
    pub(crate) text: Text<'a>,
}

#[repr(C)]
pub(crate) struct GivenSuggestion<'a> {
    pub(crate) source: GivenSource<'a>,
    pub(crate) edits: Lent<'a, GivenEdit<'a>>,
    pub(crate) flags: u32,
    pub(crate) tab_width: usize,
    pub(crate) width: usize,
}

#[repr(C)]
#[derive(Clone, Copy)]
struct ToldLeftOut {
    label: usize,
    reason: u32,
}

extern "C" {
    fn sewarqo_draw(
        report: *const GivenReport<'_>,
        sources: *const GivenSource<'_>,
        sources_len: usize,
        out: *mut u8,
        out_len: usize,
        len: *mut usize,
        left: *mut ToldLeftOut,
        left_len: usize,
        count: *mut usize,
    ) -> u32;

    fn sewarqo_suggest(
        suggestion: *const GivenSuggestion<'_>,
        out: *mut u8,
        out_len: usize,
        len: *mut usize,
        count: *mut usize,
    ) -> u32;
}

/// Why there is no picture or text: the status of a refusal.
pub(crate) struct Refusal(pub(crate) u32);

/// Want of memory.
pub(crate) const NO_MEMORY: u32 = 3;

const DRAWN: u32 = 0;
const LEFT_OUT: u32 = 1;
const BUFFER_TOO_SMALL: u32 = 2;

/// Bytes that a picture of a few short lines fits.
const FEW: usize = 2048;

/// Where a picture is drawn. A short one takes no memory of the heap.
pub(crate) struct Room {
    few: [MaybeUninit<u8>; FEW],
    /// Room for a longer one, if it has any.
    many: Vec<u8>,
}

impl Room {
    pub(crate) fn new() -> Room {
        Room { few: [MaybeUninit::uninit(); FEW], many: Vec::new() }
    }

    fn bytes(&mut self) -> &mut [MaybeUninit<u8>] {
        match self.many.capacity() {
            0 => &mut self.few,
            _ => self.many.spare_capacity_mut(),
        }
    }

    /// Takes a picture that was made elsewhere.
    pub(crate) fn hold(&mut self, picture: Vec<u8>) -> &[u8] {
        self.many = picture;
        &self.many
    }
}

/// Does this. (The library that is linked has a heap.)
#[cfg(not(own_heap))]
fn with_region<T>(call: impl FnOnce() -> T) -> T {
    call()
}

/// The picture of a report over its sources. It is drawn twice if it has more bytes than `len`.
pub(crate) fn draw<'r>(
    report: &GivenReport<'_>,
    sources: &[GivenSource<'_>],
    mut len: usize,
    room: &'r mut Room,
) -> Result<&'r [u8], Refusal> {
    if len > FEW {
        room.many.reserve(len);
    }
    loop {
        match draw_into(report, sources, room.bytes(), &mut len) {
            DRAWN | LEFT_OUT => break,
            BUFFER_TOO_SMALL => room.many.reserve(len),
            status => return Err(Refusal(status)),
        }
    }
    let picture = &room.bytes()[..len];
    // The call has written these bytes, and nothing was put there since.
    Ok(unsafe { slice::from_raw_parts(picture.as_ptr().cast(), picture.len()) })
}

/// Draws into a buffer, and returns the status. `len` is how many bytes the picture has.
fn draw_into(
    report: &GivenReport<'_>,
    sources: &[GivenSource<'_>],
    out: &mut [MaybeUninit<u8>],
    len: &mut usize,
) -> u32 {
    let mut left: [ToldLeftOut; 0] = [];
    let mut count = 0;
    // Each pointer comes from a reference or a slice that lives until the call has returned, with the
    // length of that slice; what the structs lend lives as long (`Lent`). The call writes `out`, `len`,
    // `left` and `count` alone, which are borrowed for it, reads nothing of `out`, and keeps no pointer.
    with_region(|| unsafe {
        sewarqo_draw(
            report,
            sources.as_ptr(),
            sources.len(),
            out.as_mut_ptr().cast(),
            out.len(),
            len,
            left.as_mut_ptr(),
            left.len(),
            slice::from_mut(&mut count).as_mut_ptr(),
        )
    })
}

/// The text of a help that shows edits of a source; else the status of a refusal, and the number of the edit.
pub(crate) fn suggest(suggestion: &GivenSuggestion<'_>) -> Result<Vec<u8>, (Refusal, usize)> {
    let mut out = Vec::with_capacity(1024);
    let (mut len, mut count) = (0, 0);
    loop {
        match suggest_into(suggestion, out.spare_capacity_mut(), &mut len, &mut count) {
            DRAWN => {
                // The call has written the first `len` bytes, which the vector has room for.
                unsafe { out.set_len(len) };
                return Ok(out);
            }
            BUFFER_TOO_SMALL => out.reserve(len),
            status => return Err((Refusal(status), count)),
        }
    }
}

/// Writes that text into a buffer, and returns the status. `len` is how many bytes the text has.
fn suggest_into(
    suggestion: &GivenSuggestion<'_>,
    out: &mut [MaybeUninit<u8>],
    len: &mut usize,
    count: &mut usize,
) -> u32 {
    // As in `draw_into`: the call writes `out`, `len` and `count` alone, reads nothing of `out`, and keeps no
    // pointer.
    with_region(|| unsafe { sewarqo_suggest(suggestion, out.as_mut_ptr().cast(), out.len(), len, count) })
}
