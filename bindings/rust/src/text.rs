//! Texts written by the library.

use crate::answer::Verdict;
use crate::ffi::Answer;

/// The buffer size for a first call, in bytes. It holds all but long canonical texts and long
/// reports.
const USUAL_ROOM: usize = 4096;

/// Calls a function that writes a text. Returns its answer and the text, which is empty if there is
/// none.
///
/// If the buffer is too small, the library reports the size it needs, and the function is called
/// again.
pub(crate) fn text_by(mut call: impl FnMut(&mut [u8]) -> Answer) -> (Answer, String) {
    let mut usual = [0; USUAL_ROOM];
    let answer = call(&mut usual);
    if answer.verdict() != Verdict::NoRoom {
        return (answer, text_in(&usual, answer));
    }
    let mut enough = vec![0; answer.text_length()];
    let answer = call(&mut enough);
    (answer, text_in(&enough, answer))
}

/// Returns the bytes written by a call that cannot refuse, which may be any bytes. Panics if memory
/// runs out.
pub(crate) fn accepted_bytes_by(call: impl Fn(&mut [u8]) -> Answer) -> Vec<u8> {
    let mut bytes = vec![0; USUAL_ROOM];
    let mut answer = call(&mut bytes);
    if answer.verdict() == Verdict::NoRoom {
        bytes.resize(answer.text_length(), 0);
        answer = call(&mut bytes);
    }
    match answer.accepted() {
        Ok(_) => bytes.truncate(answer.text_length()),
        Err(fault) => unreachable!("the library has nothing to refuse, and {}", fault.refusal),
    }
    bytes
}

/// Returns the text written by a call that cannot refuse. Panics if memory runs out.
pub(crate) fn accepted_text_by(call: impl Fn(&mut [u8]) -> Answer) -> String {
    let (answer, text) = text_by(call);
    match answer.accepted() {
        Ok(_) => text,
        Err(fault) => unreachable!("the library has nothing to refuse, and {}", fault.refusal),
    }
}

/// Returns the text of an answer from the buffer. All texts that the library writes are UTF-8.
pub(crate) fn text_in(room: &[u8], answer: Answer) -> String {
    String::from_utf8_lossy(&room[..answer.text_length()]).into_owned()
}

#[cfg(test)]
mod tests {
    use super::*;
    use crate::ffi::{ACCEPTED, NO_MEMORY, NO_ROOM, REFUSED};
    use std::cell::Cell;

    fn answer(verdict: u32, length: usize) -> Answer {
        Answer {
            verdict,
            length: length as u64,
            ..Answer::BLANK
        }
    }

    /// Writes a text as the library does.
    fn put(text: &str, room: &mut [u8]) -> Answer {
        if room.len() < text.len() {
            return answer(NO_ROOM, text.len());
        }
        room[..text.len()].copy_from_slice(text.as_bytes());
        answer(ACCEPTED, text.len())
    }

    #[test]
    fn text_is_written_by_one_call_or_two() {
        for (length, calls) in [
            (0, 1),
            (USUAL_ROOM, 1),
            (USUAL_ROOM + 1, 2),
            (3 * USUAL_ROOM, 2),
        ] {
            let text = "x".repeat(length);
            let made = Cell::new(0);
            let (answer, written) = text_by(|room| {
                made.set(made.get() + 1);
                put(&text, room)
            });
            assert_eq!((answer.verdict(), made.get()), (Verdict::Accepted, calls));
            assert_eq!(written, text);
        }
    }

    #[test]
    fn nothing_is_written() {
        for verdict in [REFUSED, NO_MEMORY] {
            let (told, text) = text_by(|_| answer(verdict, 0));
            assert_eq!((told.verdict, text.as_str()), (verdict, ""));
        }
    }

    #[test]
    #[should_panic(expected = "township: out of memory")]
    fn memory_that_ran_out() {
        accepted_text_by(|_| answer(NO_MEMORY, 0));
    }
}
