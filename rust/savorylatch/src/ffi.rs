//! The C interface: the record as `c/include/savorylatch.h` lays it out, and its two functions.
//!
//! All unsafe code of the crate is here, behind [`fresh`] and [`call`], which are safe.

use std::mem::{align_of, offset_of, size_of};

/// The bytes that a store needs.
pub const STORE: usize = 56_320;
/// The bytes that an answer buffer needs.
pub const ANSWER: usize = 57_344;

/// An election id of 128 bits; 0 is unset, or no mark.
#[repr(C)]
#[derive(Clone, Copy, Default)]
pub struct ElectionId {
    pub high: u64,
    pub low: u64,
}

/// Values of [`Stream::phase`]; any other is a closed stream.
pub const PHASE_OPEN: u8 = 1;
pub const PHASE_BOUND: u8 = 2;

#[repr(C)]
#[derive(Clone, Copy, Default)]
pub struct Stream {
    pub id: ElectionId,
    pub phase: u8,
    pub role: u8,
}

/// The streams by number, and the mark of each role.
#[repr(C)]
#[derive(Clone, Copy, Default)]
pub struct Streams {
    pub streams: [Stream; 32],
    pub marks: [ElectionId; 8],
}

#[repr(C)]
#[derive(Clone, Copy, Default)]
pub struct Field {
    pub kind: u8,
    pub width: u8,
}

#[repr(C)]
#[derive(Clone, Copy, Default)]
pub struct Action {
    pub id: [u8; 4],
    pub count: u8,
    pub widths: [u8; 4],
}

/// A row in the 53 bytes that CONFIGURE sent: the ids and the size are big-endian.
#[repr(C)]
#[derive(Clone, Copy, Default)]
pub struct Row {
    pub table: [u8; 4],
    pub owner: u8,
    pub size: [u8; 2],
    pub field_count: u8,
    pub fields: [Field; 4],
    pub action_count: u8,
    pub actions: [Action; 4],
}

/// The rows in force, `count` of them.
#[repr(C)]
#[derive(Clone, Copy, Default)]
pub struct Rows {
    pub rows: [Row; 8],
    pub count: u8,
}

/// The record, with the number of entries in its store.
#[repr(C)]
#[derive(Clone, Copy, Default)]
pub struct Agent {
    pub device: u64,
    pub streams: Streams,
    pub rows: Rows,
    pub count: usize,
}

/// Of a type its size and alignment, of each field its offset and size, as the header states them.
macro_rules! layout {
    ($type:ty, $size:literal, $align:literal, $($field:ident: $at:literal, $bytes:literal;)*) => {
        const _: () = assert!(size_of::<$type>() == $size && align_of::<$type>() == $align);
        $(const _: () = assert!(
            offset_of!($type, $field) == $at && size_of_field(|whole: &$type| &whole.$field) == $bytes
        );)*
    };
}

const fn size_of_field<T, F>(_: fn(&T) -> &F) -> usize {
    size_of::<F>()
}

layout!(ElectionId, 16, 8, high: 0, 8; low: 8, 8;);
layout!(Stream, 24, 8, id: 0, 16; phase: 16, 1; role: 17, 1;);
layout!(Streams, 896, 8, streams: 0, 768; marks: 768, 128;);
layout!(Field, 2, 1, kind: 0, 1; width: 1, 1;);
layout!(Action, 9, 1, id: 0, 4; count: 4, 1; widths: 5, 4;);
layout!(
    Row, 53, 1,
    table: 0, 4; owner: 4, 1; size: 5, 2; field_count: 7, 1;
    fields: 8, 8; action_count: 16, 1; actions: 17, 36;
);
layout!(Rows, 425, 1, rows: 0, 424; count: 424, 1;);
layout!(Agent, 1344, 8, device: 0, 8; streams: 8, 896; rows: 904, 425; count: 1336, 8;);

extern "C" {
    fn savorylatch_new(agent: *mut Agent, device: u64);
    fn savorylatch_call(
        agent: *mut Agent,
        frame: *const u8,
        frame_length: usize,
        store: *mut u8,
        store_length: usize,
        answer: *mut u8,
        answer_length: usize,
    ) -> u8;
}

/// A fresh record.
pub fn fresh(device: u64) -> Agent {
    let mut agent = Agent::default();
    // SAFETY: the pointer comes from a `&mut` to a record of the header's layout, so it is not null
    // and all of the record may be written. Every field is a number: whatever is written is valid.
    unsafe { savorylatch_new(&mut agent, device) };
    agent
}

/// Hands the agent a frame and returns the reason.
pub fn call(agent: &mut Agent, frame: &[u8], store: &mut [u8], answer: &mut [u8]) -> u8 {
    // SAFETY: the header asks three things of the host.
    // - No pointer is null, and each length is true: all come from references, which are never null
    //   even where a slice is empty, and each length is that of the slice its pointer comes from.
    // - Nothing overlaps: three `&mut` and a `&` are alive at once.
    // - Only the library makes and changes a record: `crate::Agent` keeps it private, and gets it
    //   from `fresh` or from another `crate::Agent`. That the store is this record's is left to the
    //   caller; with any other the header promises that a call ends and keeps within what it was
    //   lent, so no memory is at stake.
    unsafe {
        savorylatch_call(
            agent,
            frame.as_ptr(),
            frame.len(),
            store.as_mut_ptr(),
            store.len(),
            answer.as_mut_ptr(),
            answer.len(),
        )
    }
}
