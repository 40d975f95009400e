//! The calls of libsnapjudge.a. What they answer is proved; this file is not.
use crate::{Answer, Error, Form, Judge, Part, RoomError, Status};

/// The version of the library that this crate is for.
const VERSION: u32 = 1;

/// What is added to a number of events where a component may have many writers.
const MANY_WRITERS: u32 = 1 << 31;

const NO_ROOM: u32 = 5;
const NO_LIMIT: u32 = 6;
const NO_OPTION: u32 = 7;

extern "C" {
    fn snapjudge_check_limit(
        text: *const u8,
        text_length: usize,
        events: u32,
        report: *mut u8,
        room: usize,
        report_length: *mut usize,
    ) -> u32;

    fn snapjudge_explain(
        text: *const u8,
        text_length: usize,
        events: u32,
        form: u32,
        out: *mut u8,
        room: usize,
        length: *mut usize,
    ) -> u32;

    fn snapjudge_explain_faults(
        text: *const u8,
        text_length: usize,
        events: u32,
        whole: u32,
        faults: u32,
        out: *mut u8,
        room: usize,
        length: *mut usize,
    ) -> u32;

    fn snapjudge_json(
        text: *const u8,
        text_length: usize,
        events: u32,
        name: *const u8,
        name_length: usize,
        out: *mut u8,
        room: usize,
        length: *mut usize,
    ) -> u32;

    fn snapjudge_shrink(
        text: *const u8,
        text_length: usize,
        events: u32,
        form: u32,
        out: *mut u8,
        room: usize,
        length: *mut usize,
    ) -> u32;

    fn snapjudge_draw_calls(
        text: *const u8,
        text_length: usize,
        events: u32,
        form: u32,
        calls: u32,
        from: u32,
        around: u32,
        out: *mut u8,
        room: usize,
        length: *mut usize,
    ) -> u32;

    fn snapjudge_stats(
        text: *const u8,
        text_length: usize,
        events: u32,
        object: u32,
        out: *mut u8,
        room: usize,
        length: *mut usize,
    ) -> u32;

    fn snapjudge_version() -> u32;
}

/// What is asked of a text.
#[derive(Clone, Copy)]
pub(crate) enum Question<'a> {
    Report,
    Explanation { drawn: bool, whole: bool },
    Faults { whole: bool, faults: u32 },
    Object { name: &'a str },
    Witness,
    WitnessDrawn,
    WitnessMap,
    Picture(Form, Part),
    Stats { object: bool },
}

// The number by which the library knows the limit of a judge. It is 0, which is no limit, if the events alone would ask for many writers.
fn limit_of(judge: Judge) -> u32 {
    match judge {
        Judge { events: MANY_WRITERS.., .. } => 0,
        Judge { events, many_writers: true } => MANY_WRITERS + events,
        Judge { events, many_writers: false } => events,
    }
}

/// What the library answers, and the length of what it writes.
fn call(question: Question<'_>, text: &[u8], judge: Judge, room: &mut [u8]) -> (u32, usize) {
    let (events, mut length) = (limit_of(judge), 0);
    let (from, bytes, to, most, end) = (text.as_ptr(), text.len(), room.as_mut_ptr(), room.len(), &mut length);
    // SAFETY: the pointers and lengths are those of a `&[u8]` or `&str`, a `&mut [u8]` and a `&mut usize`. They are never null, lie
    // apart, are initialized, and are borrowed for the call. The library's memory is the C library's, as is Rust's `System`.
    let answer = unsafe {
        assert_eq!(snapjudge_version(), VERSION, "libsnapjudge.a is of another version");
        match question {
            Question::Report => snapjudge_check_limit(from, bytes, events, to, most, end),
            Question::Explanation { drawn, whole } => {
                snapjudge_explain(from, bytes, events, u32::from(drawn) + 2 * u32::from(whole), to, most, end)
            }
            Question::Faults { whole, faults } => snapjudge_explain_faults(from, bytes, events, whole.into(), faults, to, most, end),
            Question::Object { name } => snapjudge_json(from, bytes, events, name.as_ptr(), name.len(), to, most, end),
            Question::Witness => snapjudge_shrink(from, bytes, events, 0, to, most, end),
            Question::WitnessDrawn => snapjudge_shrink(from, bytes, events, 1, to, most, end),
            Question::WitnessMap => snapjudge_shrink(from, bytes, events, 2, to, most, end),
            Question::Picture(form, part) => {
                snapjudge_draw_calls(from, bytes, events, form as u32, part.calls, part.from, part.around, to, most, end)
            }
            Question::Stats { object } => snapjudge_stats(from, bytes, events, object.into(), to, most, end),
        }
    };
    (answer, length)
}

/// The status of a text and the length of the answer, which is written to the front of the room.
pub(crate) fn answer_into(
    question: Question<'_>,
    text: &[u8],
    judge: Judge,
    room: &mut [u8],
) -> Result<(Status, usize), RoomError> {
    let (answer, length) = call(question, text, judge, room);
    match answer {
        0 => Ok((Status::Atomic, length)),
        1 => Ok((Status::Regular, length)),
        2 => Ok((Status::Irregular, length)),
        3 => Ok((Status::Refused, length)),
        NO_ROOM => Err(RoomError::TooLittle(length)),
        NO_LIMIT => Err(RoomError::NoLimit(judge.events)),
        NO_OPTION => Err(RoomError::NoPart),
        _ => Err(RoomError::OutOfMemory),
    }
}

// Room for an answer.
fn room_of(size: usize) -> Result<Vec<u8>, Error> {
    let mut room = Vec::new();
    room.try_reserve_exact(size).map_err(|_| Error::OutOfMemory)?;
    room.resize(size, 0);
    Ok(room)
}

/// The answer to a question, in room of its own. It is asked again if the first room is too small.
pub(crate) fn answer(question: Question<'_>, text: &[u8], judge: Judge) -> Result<Answer, Error> {
    let mut size = text.len() + text.len() / 4 + 1024;
    loop {
        let mut room = room_of(size)?;
        match answer_into(question, text, judge, &mut room) {
            Ok((status, length)) => {
                room.truncate(length);
                return Ok(Answer { status, text: String::from_utf8(room).expect("an answer is UTF-8") });
            }
            Err(RoomError::TooLittle(length)) => size = length,
            Err(RoomError::NoLimit(events)) => return Err(Error::NoLimit(events)),
            Err(RoomError::NoPart) => return Err(Error::NoPart),
            Err(RoomError::OutOfMemory) => return Err(Error::OutOfMemory),
        }
    }
}
