//! The calls of the static library. They are declared by hand: nothing checks that this is what `krates_c` exports.

use crate::memory::lengthen;
use crate::refusal::Refusal;

/// How a call ended.
#[repr(C)]
#[derive(Clone, Copy)]
pub(crate) struct Answer {
    status: u32,
    length: usize,
}

unsafe extern "C" {
    fn krates_list(
        document: *const u8,
        document_length: usize,
        options: *const u8,
        options_length: usize,
        room: *mut u8,
        room_length: usize,
    ) -> Answer;

    fn krates_graph(
        document: *const u8,
        document_length: usize,
        options: *const u8,
        options_length: usize,
        room: *mut u8,
        room_length: usize,
    ) -> Answer;

    fn krates_why(
        document: *const u8,
        document_length: usize,
        options: *const u8,
        options_length: usize,
        id: *const u8,
        id_length: usize,
        room: *mut u8,
        room_length: usize,
    ) -> Answer;

    fn krates_check(
        document: *const u8,
        document_length: usize,
        options: *const u8,
        options_length: usize,
        certificate: *const u8,
        certificate_length: usize,
        room: *mut u8,
        room_length: usize,
    ) -> Answer;
}

pub(crate) fn list(document: &[u8], options: &[u8], room: &mut [u8]) -> Answer {
    // SAFETY: each pointer comes with the length of its own slice, and is never null. The slices live through the call, which keeps
    // none of them; `room` is lent alone, so it overlaps no other, and nothing but bytes is written there.
    unsafe {
        krates_list(
            document.as_ptr(),
            document.len(),
            options.as_ptr(),
            options.len(),
            room.as_mut_ptr(),
            room.len(),
        )
    }
}

pub(crate) fn graph(document: &[u8], options: &[u8], room: &mut [u8]) -> Answer {
    // SAFETY: as in `list`.
    unsafe {
        krates_graph(
            document.as_ptr(),
            document.len(),
            options.as_ptr(),
            options.len(),
            room.as_mut_ptr(),
            room.len(),
        )
    }
}

pub(crate) fn why(document: &[u8], options: &[u8], id: &[u8], room: &mut [u8]) -> Answer {
    // SAFETY: as in `list`; `id` is one more slice that is only read.
    unsafe {
        krates_why(
            document.as_ptr(),
            document.len(),
            options.as_ptr(),
            options.len(),
            id.as_ptr(),
            id.len(),
            room.as_mut_ptr(),
            room.len(),
        )
    }
}

pub(crate) fn check(document: &[u8], options: &[u8], certificate: &[u8], room: &mut [u8]) -> Answer {
    // SAFETY: as in `list`; `certificate` is one more slice that is only read.
    unsafe {
        krates_check(
            document.as_ptr(),
            document.len(),
            options.as_ptr(),
            options.len(),
            certificate.as_ptr(),
            certificate.len(),
            room.as_mut_ptr(),
            room.len(),
        )
    }
}

/// The status of an answer for which there is no room.
const TOO_SHORT: u32 = 8;

/// The text that a call hands over. Where the room is too short, the call is made again with the room that it needs.
pub(crate) fn answered(room: usize, mut call: impl FnMut(&mut [u8]) -> Answer) -> Result<String, Refusal> {
    let mut bytes = Vec::new();
    lengthen(&mut bytes, room)?;
    let mut answer = call(&mut bytes);
    while answer.status == TOO_SHORT {
        lengthen(&mut bytes, answer.length)?;
        answer = call(&mut bytes);
    }
    bytes.truncate(answer.length);
    let text = String::from_utf8(bytes).expect("what is handed over is UTF-8");
    match answer.status {
        0 => Ok(text),
        status => Err(Refusal::of(status, text)),
    }
}

#[cfg(test)]
mod tests {
    use super::*;

    /// Hands `abc` over with this status, as the library does.
    fn handed(status: u32, room: &mut [u8]) -> Answer {
        let length = 3;
        match room.get_mut(..length) {
            Some(front) => front.copy_from_slice(b"abc"),
            None => {
                return Answer {
                    status: TOO_SHORT,
                    length,
                };
            }
        }
        Answer { status, length }
    }

    #[test]
    fn asks_again_with_the_room_that_is_needed() {
        for length in 0..6 {
            let mut calls = 0;
            let told = answered(length, |room| {
                calls += 1;
                handed(0, room)
            });
            assert_eq!(told.as_deref(), Ok("abc"));
            assert_eq!(calls, if length < 3 { 2 } else { 1 });
        }
    }

    #[test]
    fn tells_each_status() {
        let of = |status| answered(3, |room| handed(status, room)).unwrap_err();
        let cause = || "abc".to_owned();
        assert_eq!(
            [1, 2, 3, 4, 5, 6, 7, 9].map(of),
            [
                Refusal::Options(cause()),
                Refusal::Id(cause()),
                Refusal::Utf8,
                Refusal::Parse(cause()),
                Refusal::Build(cause()),
                Refusal::NotKept(cause()),
                Refusal::Certificate(cause()),
                Refusal::Memory,
            ]
        );
    }

    #[test]
    fn a_room_of_any_length_will_do() {
        let whole = answered(1 << 10, |room| list(b"{}", b"", room));
        for length in 0..80 {
            assert_eq!(answered(length, |room| list(b"{}", b"", room)), whole);
        }
    }
}
