//! The calls of `include/wac.h`.

use crate::{Error, ErrorKind};

/// `wac_answer`.
#[repr(C)]
#[derive(Default)]
struct Answer {
    status: u32,
    has_place: u8,
    offset: usize,
    length: usize,
    written: usize,
    needed: usize,
    message_written: usize,
    message_needed: usize,
}

extern "C" {
    fn wac_run(
        word: u32,
        limit: usize,
        text: *const u8,
        text_length: usize,
        out: *mut u8,
        out_room: usize,
        message: *mut u8,
        message_room: usize,
        answer: *mut Answer,
    );

    fn wac_graph(
        limit: usize,
        text: *const u8,
        text_length: usize,
        packages: *const u8,
        packages_length: usize,
        out: *mut u8,
        out_room: usize,
        message: *mut u8,
        message_room: usize,
        answer: *mut Answer,
    );
}

/// Room for what is written and for a message.
struct Rooms {
    out: Vec<u8>,
    message: Vec<u8>,
}

/// Calls with the word of a number.
pub(crate) fn run(word: u32, text: &str, limit: usize) -> Result<String, Error> {
    call(text.len(), limit, |rooms, answer| {
        // SAFETY: the pointers are those of slices and of a struct that live through the call, and don't overlap; a
        // slice's pointer is never null. The declaration and the struct are those of include/wac.h.
        unsafe {
            wac_run(
                word,
                limit,
                text.as_ptr(),
                text.len(),
                rooms.out.as_mut_ptr(),
                rooms.out.len(),
                rooms.message.as_mut_ptr(),
                rooms.message.len(),
                answer,
            );
        }
    })
}

/// Calls for a graph, with the frames of packages.
pub(crate) fn graph(text: &str, packages: &[u8], limit: usize) -> Result<String, Error> {
    call(text.len(), limit, |rooms, answer| {
        // SAFETY: as in `run`.
        unsafe {
            wac_graph(
                limit,
                text.as_ptr(),
                text.len(),
                packages.as_ptr(),
                packages.len(),
                rooms.out.as_mut_ptr(),
                rooms.out.len(),
                rooms.message.as_mut_ptr(),
                rooms.message.len(),
                answer,
            );
        }
    })
}

/// Calls, and where the room was too small, once more with as much as there is to write.
fn call(
    length: usize,
    limit: usize,
    call: impl Fn(&mut Rooms, &mut Answer),
) -> Result<String, Error> {
    assert!(limit != 0, "a limit of no brackets");
    let mut rooms = Rooms {
        out: vec![0; 2 * length + 256],
        message: vec![0; 256],
    };
    let mut answer = Answer::default();
    call(&mut rooms, &mut answer);
    if answer.needed > rooms.out.len() || answer.message_needed > rooms.message.len() {
        rooms.out.resize(answer.needed, 0);
        rooms.message.resize(answer.message_needed, 0);
        call(&mut rooms, &mut answer);
    }
    rooms.out.truncate(answer.written);
    rooms.message.truncate(answer.message_written);
    told(&answer, rooms)
}

/// What a call came to.
fn told(answer: &Answer, rooms: Rooms) -> Result<String, Error> {
    let kind = match answer.status {
        0 => return Ok(text(rooms.out)),
        4 => ErrorKind::OutOfMemory,
        5 => ErrorKind::NestedTooDeep,
        6 => ErrorKind::BadPackage,
        _ => ErrorKind::Rejected,
    };
    Err(Error {
        kind,
        span: (answer.has_place == 1).then(|| answer.offset..answer.offset + answer.length),
        message: text(rooms.message),
    })
}

/// What the library writes of a text is UTF-8.
fn text(bytes: Vec<u8>) -> String {
    String::from_utf8(bytes).expect("the library writes whole characters")
}
