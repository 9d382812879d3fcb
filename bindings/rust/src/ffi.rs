//! The library's calls, each in room that is made for it. All of the crate's unsafe code stands here.
//!
//! What the library promises of each call (docs/C.md, and bindings/c/hyssopplinth.h above `reencode_raw_plain`): it reads what is
//! handed in, writes the rooms and the outcome alone, inside the counts that it is told, keeps no pointer, and may be called by any
//! thread. With status 0 the first `length` items of the room are written, which are no more than it has.

/// The statuses of the library for C.
pub(crate) mod status {
    pub const DONE: u32 = 0;
    pub const NO_MEMORY: u32 = 1;
    pub const PARSE_ERROR: u32 = 5;
    pub const REFUSED: u32 = 6;
    pub const CODE_SECTION_SIZE: u32 = 7;
    pub const NON_CORE_MODULE: u32 = 8;
    pub const NON_COMPONENT: u32 = 9;
    pub const TOO_LARGE: u32 = 10;
    pub const BAD_RENAMING: u32 = 11;
    pub const MISCOUNTED: u32 = 15;
    pub const TOO_SMALL: u32 = 16;
    pub const NOT_AN_ORDER: u32 = 17;
    pub const DANGLING: u32 = 18;
    pub const EXPORT_CLASH: u32 = 19;
    pub const TWO_STARTS: u32 = 20;
    pub const UNEVEN: u32 = 115;
    pub const REPEATED_SECTION: u32 = 116;
}

/// `struct reencode_entry`.
#[repr(C)]
#[derive(Clone, Copy, Debug, PartialEq, Eq)]
pub(crate) struct Entry {
    pub space: u32,
    pub from: u32,
    pub to: u32,
}

/// `struct reencode_visit`.
#[repr(C)]
#[derive(Clone, Copy, Debug, PartialEq, Eq)]
pub(crate) struct ListedVisit {
    pub kind: u32,
    pub space: u32,
    pub count: u32,
    pub index: u32,
    pub section: u32,
    pub row: u32,
}

/// `struct reencode_outcome`.
#[repr(C)]
#[derive(Clone, Copy, Debug, Default)]
pub(crate) struct Outcome {
    pub length: usize,
    pub place: u64,
    pub size: u64,
    pub status: u32,
    pub space: u32,
    pub index: u32,
    pub by: u32,
    pub count: usize,
    pub stated: u32,
    pub rows: u32,
    pub id: u32,
    pub spare: u32,
}

impl Outcome {
    fn no_memory() -> Outcome {
        Outcome { status: status::NO_MEMORY, ..Outcome::default() }
    }
}

/// The calls as the linker knows them. No pointer of theirs is null: none of a slice of Rust is, nor of a `Vec`, also where it is empty.
pub(crate) mod raw {
    use super::{Entry, ListedVisit, Outcome};

    extern "C" {
        pub fn reencode_raw_plain(
            bytes: *const u8,
            length: usize,
            ceiling: u32,
            room: *mut u8,
            room_length: usize,
            outcome: *mut Outcome,
        ) -> u32;
        pub fn reencode_raw_rename(
            bytes: *const u8,
            length: usize,
            entries: *const Entry,
            entry_count: usize,
            strict: u32,
            ceiling: u32,
            room: *mut u8,
            room_length: usize,
            outcome: *mut Outcome,
        ) -> u32;
        pub fn reencode_raw_visits(
            bytes: *const u8,
            length: usize,
            room: *mut ListedVisit,
            room_count: usize,
            outcome: *mut Outcome,
        ) -> u32;
        pub fn reencode_raw_answer(
            bytes: *const u8,
            length: usize,
            answers: *const u32,
            answer_count: usize,
            ceiling: u32,
            room: *mut u8,
            room_length: usize,
            outcome: *mut Outcome,
        ) -> u32;
        pub fn reencode_raw_renumber(
            bytes: *const u8,
            length: usize,
            order: *const u32,
            order_count: usize,
            ceiling: u32,
            room: *mut u8,
            room_length: usize,
            outcome: *mut Outcome,
        ) -> u32;
        pub fn reencode_raw_prune(
            bytes: *const u8,
            length: usize,
            ceiling: u32,
            room: *mut u8,
            room_length: usize,
            kept: *mut u32,
            kept_count: usize,
            outcome: *mut Outcome,
        ) -> u32;
        pub fn reencode_raw_merge(
            first: *const u8,
            first_length: usize,
            second: *const u8,
            second_length: usize,
            ceiling: u32,
            room: *mut u8,
            room_length: usize,
            outcome: *mut Outcome,
        ) -> u32;
        pub fn reencode_raw_calls(bytes: *const u8, length: usize, room: *mut u32, room_count: usize, outcome: *mut Outcome) -> u32;
    }
}

/// What an output is made of: any bytes of its size are one.
trait Plain: Copy {}
impl Plain for u8 {}
impl Plain for u32 {}
impl Plain for ListedVisit {}

/// What came of a call that gave no output: the outcome, and the front of the room where that was written all the same.
pub(crate) struct Refusal {
    pub outcome: Outcome,
    pub name: Vec<u8>,
}

impl From<Outcome> for Refusal {
    fn from(outcome: Outcome) -> Refusal {
        Refusal { outcome, name: Vec::new() }
    }
}

/// Room for so many items, or none where there is no memory.
fn room_for<T>(count: usize) -> Result<Vec<T>, Outcome> {
    let mut room = Vec::new();
    match room.try_reserve_exact(count) {
        Ok(()) => Ok(room),
        Err(_) => Err(Outcome::no_memory()),
    }
}

/// Calls with room for so many items, and once more where that was too small. With status 0, and 19, what it answers is the room's front.
///
/// # Safety
///
/// `call` is one of the library's calls, with this room, the count of its items and this outcome. Nothing is written in the room yet, as in
/// that of the header's own calls; the library reads nothing of a room.
unsafe fn in_room<T: Plain>(first: usize, call: impl Fn(*mut T, usize, *mut Outcome) -> u32) -> Result<(Vec<T>, Outcome), Outcome> {
    let mut outcome = Outcome::default();
    let mut room = room_for(first)?;
    call(room.as_mut_ptr(), room.capacity(), &mut outcome);
    if outcome.status == status::TOO_SMALL {
        drop(room);
        room = room_for(outcome.length)?;
        call(room.as_mut_ptr(), room.capacity(), &mut outcome);
    }
    let written = match outcome.status {
        status::DONE => outcome.length,
        // the name, where the room is long enough for it
        status::EXPORT_CLASH if outcome.length <= room.capacity() => outcome.length,
        _ => return Err(outcome),
    };
    assert!(written <= room.capacity());
    // SAFETY: the library has written the first `length` items, and the capacity is not less.
    unsafe { room.set_len(written) };
    Ok((room, outcome))
}

/// The output of a call whose other statuses write nothing.
fn output<T>(came: Result<(Vec<T>, Outcome), Outcome>) -> Result<Vec<T>, Refusal> {
    match came {
        Ok((made, Outcome { status: status::DONE, .. })) => Ok(made),
        Ok((_, outcome)) | Err(outcome) => Err(Refusal::from(outcome)),
    }
}

/// The first room of a call that may make the bytes longer.
fn some_more(length: usize) -> usize {
    length.saturating_add(length / 8).saturating_add(64)
}

pub(crate) fn plain(bytes: &[u8], ceiling: u32) -> Result<Vec<u8>, Refusal> {
    // SAFETY: the pointer and the count are those of a slice that lives on.
    output(unsafe {
        in_room(bytes.len(), |room, count, outcome| raw::reencode_raw_plain(bytes.as_ptr(), bytes.len(), ceiling, room, count, outcome))
    })
}

pub(crate) fn rename(bytes: &[u8], entries: &[Entry], strict: bool, ceiling: u32) -> Result<Vec<u8>, Refusal> {
    // SAFETY: the pointers and the counts are those of slices that live on.
    output(unsafe {
        in_room(some_more(bytes.len()), |room, count, outcome| {
            raw::reencode_raw_rename(
                bytes.as_ptr(),
                bytes.len(),
                entries.as_ptr(),
                entries.len(),
                u32::from(strict),
                ceiling,
                room,
                count,
                outcome,
            )
        })
    })
}

pub(crate) fn visits(bytes: &[u8]) -> Result<Vec<ListedVisit>, Refusal> {
    // SAFETY: the pointer and the count are those of a slice that lives on.
    output(unsafe {
        in_room(bytes.len() / 8 + 64, |room, count, outcome| raw::reencode_raw_visits(bytes.as_ptr(), bytes.len(), room, count, outcome))
    })
}

pub(crate) fn answer(bytes: &[u8], answers: &[u32], ceiling: u32) -> Result<Vec<u8>, Refusal> {
    // SAFETY: the pointers and the counts are those of slices that live on.
    output(unsafe {
        in_room(some_more(bytes.len()), |room, count, outcome| {
            raw::reencode_raw_answer(bytes.as_ptr(), bytes.len(), answers.as_ptr(), answers.len(), ceiling, room, count, outcome)
        })
    })
}

pub(crate) fn renumber(bytes: &[u8], order: &[u32], ceiling: u32) -> Result<Vec<u8>, Refusal> {
    // SAFETY: the pointers and the counts are those of slices that live on.
    output(unsafe {
        in_room(some_more(bytes.len()), |room, count, outcome| {
            raw::reencode_raw_renumber(bytes.as_ptr(), bytes.len(), order.as_ptr(), order.len(), ceiling, room, count, outcome)
        })
    })
}

/// The module, and the kept functions.
pub(crate) fn prune(bytes: &[u8], ceiling: u32) -> Result<(Vec<u8>, Vec<u32>), Refusal> {
    // a function takes four bytes of a module at least
    let mut kept: Vec<u32> = room_for(bytes.len() / 4 + 1)?;
    let (functions, most) = (kept.as_mut_ptr(), kept.capacity());
    // SAFETY: the pointer and the count are those of a slice that lives on; so does the second room, which nothing else touches meanwhile.
    let (made, outcome) = unsafe {
        in_room(bytes.len().saturating_add(64), |room, count, outcome| {
            raw::reencode_raw_prune(bytes.as_ptr(), bytes.len(), ceiling, room, count, functions, most, outcome)
        })
    }?;
    if outcome.status != status::DONE {
        return Err(Refusal::from(outcome));
    }
    assert!(outcome.count <= most);
    // SAFETY: with status 0 the library has written the first `count` numbers, and the capacity is not less.
    unsafe { kept.set_len(outcome.count) };
    Ok((made, kept))
}

pub(crate) fn merge(first: &[u8], second: &[u8], ceiling: u32) -> Result<Vec<u8>, Refusal> {
    // the first room takes each name of the second module
    let both = some_more(first.len().saturating_add(second.len()));
    // SAFETY: the pointers and the counts are those of slices that live on.
    let (made, outcome) = unsafe {
        in_room(both, |room, count, outcome| {
            raw::reencode_raw_merge(first.as_ptr(), first.len(), second.as_ptr(), second.len(), ceiling, room, count, outcome)
        })
    }?;
    match outcome.status {
        status::DONE => Ok(made),
        _ => Err(Refusal { outcome, name: made }),
    }
}

pub(crate) fn calls(bytes: &[u8]) -> Result<Vec<u32>, Refusal> {
    // SAFETY: the pointer and the count are those of a slice that lives on.
    output(unsafe {
        in_room(bytes.len() / 4 + 64, |room, count, outcome| raw::reencode_raw_calls(bytes.as_ptr(), bytes.len(), room, count, outcome))
    })
}
