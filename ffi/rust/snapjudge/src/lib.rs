//! Judges a recorded history of a single-writer board: is it atomic, only regular, or neither?
//!
//! [`check`] gives the verdict as values. [`report`], [`explain`], [`shrink`], [`draw`] and [`json`] give what the commands of the
//! program write, to the byte. [`stats`] counts what a run has shown. A history may be a `&str`, a `&[u8]`, or what stands for one. A
//! [`Judge`] takes longer histories, and many writers of a component.
//!
//! What the library answers is proved. This crate, which calls it and makes values of its JSON, is not. It reads the JSON itself, and
//! has no dependencies, so that it builds without a network.
//!
//! A call needs 128 KiB of stack, and is not to be made in the forked child of a process with threads. Threads may call at the same time.
//!
//! ```
//! let text = "event,process,op,data\nbegin,0,update,0:1:7\nend,0,update,\nbegin,1,view,\nend,1,view,0:1:7\n";
//! let judged = snapjudge::check(text)?;
//! assert!(judged.is_atomic(), "{}", snapjudge::explain(text)?.text);
//! # Ok::<(), snapjudge::Error>(())
//! ```

mod json;
mod library;
mod values;

pub use values::{Call, ComponentStats, Counts, Difference, Entry, Fault, NamedUpdate, Op, Refusal, Side, Stats, Step};

use json::Json;
use library::Question;
use std::fmt;

/// How many events a history has at most, unless a [`Judge`] says it.
pub const USUAL_LIMIT: u32 = 65_536;

/// How many faults of a kind an explanation may have.
pub const MOST_FAULTS: u32 = 1000;

/// What a text is.
#[derive(Clone, Copy, Debug, PartialEq, Eq)]
pub enum Status {
    /// An atomic history.
    Atomic,
    /// A history that is regular, and not atomic.
    Regular,
    /// A history that is not regular.
    Irregular,
    /// A text that is not a history.
    Refused,
}

/// A form of a picture. The numbers are those of the library.
#[derive(Clone, Copy, Debug, PartialEq, Eq)]
pub enum Form {
    /// A page for a browser, light or dark as the reader's system is.
    Page,
    /// SVG alone, with dark ink on a light ground.
    Svg,
    /// Characters.
    Lines,
    /// A page with dark ink on a light ground.
    LightPage,
    /// A page with light ink on a dark ground.
    DarkPage,
    /// SVG alone, with light ink on a dark ground.
    DarkSvg,
}

/// What a command of the program ends with, and what it writes.
#[derive(Clone, Debug, PartialEq, Eq)]
pub struct Answer {
    pub status: Status,
    pub text: String,
}

/// What was found of a history. The faults are the first of each kind, at most four.
#[derive(Clone, Debug, PartialEq, Eq)]
pub enum Verdict {
    /// An order of all completed calls and some pending updates explains every view.
    Atomic { order: Vec<Step> },
    /// Each view by itself is right, and no order explains all.
    Regular { faults: Vec<Fault> },
    /// A view is too old, too early, or shows what nobody wrote.
    Irregular { faults: Vec<Fault> },
}

/// Which calls of a history are drawn: how many, and from which on or around which. Calls are counted from 1, and 0 asks for nothing.
#[derive(Clone, Copy, Debug, Default, PartialEq, Eq)]
pub struct Part {
    pub calls: u32,
    pub from: u32,
    pub around: u32,
}

/// A history that was judged.
#[derive(Clone, Debug, PartialEq, Eq)]
pub struct Judged {
    pub counts: Counts,
    /// No view precedes one that shows an older number of some component.
    pub monotone: bool,
    pub verdict: Verdict,
    /// The report, as `snapjudge check` prints it.
    pub report: String,
}

impl Judged {
    pub fn is_atomic(&self) -> bool {
        matches!(self.verdict, Verdict::Atomic { .. })
    }

    pub fn is_regular(&self) -> bool {
        !matches!(self.verdict, Verdict::Irregular { .. })
    }

    /// The first fault of each kind. An atomic history has none.
    ///
    /// ```
    /// let judged = snapjudge::check("event,process,op,data\nbegin,0,view,\nend,0,view,0:1:7\n")?;
    /// let [snapjudge::Fault::Integrity { count: 1, view, entry, update: None }] = judged.faults() else { panic!() };
    /// assert_eq!((view.call, view.begin, view.end, entry.value), (1, 2, Some(3), 7));
    /// # Ok::<(), snapjudge::Error>(())
    /// ```
    pub fn faults(&self) -> &[Fault] {
        match &self.verdict {
            Verdict::Atomic { .. } => &[],
            Verdict::Regular { faults } | Verdict::Irregular { faults } => faults,
        }
    }
}

/// Why a text was not judged.
#[derive(Clone, Debug, PartialEq, Eq)]
pub enum Error {
    /// The text is not a history. It is written as the sentences of `snapjudge explain`.
    Refused(Refusal),
    /// There is no such limit of events.
    NoLimit(u32),
    /// A history has no such part to draw.
    NoPart,
    /// Memory ran out.
    OutOfMemory,
}

impl fmt::Display for Error {
    fn fmt(&self, f: &mut fmt::Formatter<'_>) -> fmt::Result {
        match self {
            Error::Refused(refusal) => f.write_str(refusal.sentences.trim_end_matches('\n')),
            Error::NoLimit(events) => write!(f, "a limit of events is from 1 to 1,048,576, and not {events}"),
            Error::NoPart => f.write_str("the history has no such part"),
            Error::OutOfMemory => f.write_str("out of memory"),
        }
    }
}

impl std::error::Error for Error {}

/// Why nothing was written into the room for a report.
#[derive(Clone, Copy, Debug, PartialEq, Eq)]
pub enum RoomError {
    /// The report has this number of bytes.
    TooLittle(usize),
    /// There is no such limit of events.
    NoLimit(u32),
    /// A history has no such part to draw.
    NoPart,
    /// Memory ran out.
    OutOfMemory,
}

/// The calls of this crate with another limit of events, or for many writers of a component.
///
/// ```
/// use snapjudge::{Error, Judge};
/// let text = "event,process,op,data\nbegin,0,view,\nend,0,view,\n";
/// assert!(Judge::of(1_048_576).check(text)?.is_atomic());
/// assert!(matches!(Judge::of(1).check(text), Err(Error::Refused(refusal)) if refusal.word == "toomany"));
/// assert_eq!(Judge::of(0).check(text), Err(Error::NoLimit(0)));
/// # Ok::<(), Error>(())
/// ```
#[derive(Clone, Copy, Debug, PartialEq, Eq)]
pub struct Judge {
    events: u32,
    many_writers: bool,
}

impl Default for Judge {
    fn default() -> Self {
        Judge::of(USUAL_LIMIT)
    }
}

impl Judge {
    /// The judge of histories of at most this many events, from 1 to 1,048,576. Other limits give [`Error::NoLimit`] when it judges.
    pub const fn of(events: u32) -> Self {
        Judge { events, many_writers: false }
    }

    /// The same judge, of histories whose components may have many writers, as by `--writers many`.
    ///
    /// ```
    /// use snapjudge::{Error, Judge};
    /// let begins = "event,process,op,data\nbegin,0,update,0:1:5\nbegin,1,update,0:2:6\n";
    /// let text = format!("{begins}end,0,update,\nend,1,update,\n");
    /// assert!(Judge::default().with_many_writers().check(&text)?.is_atomic());
    /// assert!(matches!(Judge::default().check(&text), Err(Error::Refused(refusal)) if refusal.word == "writer"));
    /// # Ok::<(), Error>(())
    /// ```
    pub const fn with_many_writers(self) -> Self {
        Judge { many_writers: true, ..self }
    }

    fn ask(self, question: Question<'_>, text: &[u8]) -> Result<Answer, Error> {
        library::answer(question, text, self)
    }

    /// The object of a history. A text that is not a history is an error.
    fn history<'a>(self, text: &[u8], object: &'a Answer) -> Result<Json<'a>, Error> {
        let json = Json::read(&object.text).expect("the object of the library");
        if object.status != Status::Refused {
            return Ok(json);
        }
        let (record, word) = values::refused(&json).expect("the object of a refused text");
        Err(Error::Refused(Refusal { record, word, sentences: self.explain(text)?.text }))
    }

    /// As [`check()`].
    pub fn check(self, text: impl AsRef<[u8]>) -> Result<Judged, Error> {
        let text = text.as_ref();
        let object = self.json(text, "")?;
        let json = self.history(text, &object)?;
        let values::Found { counts, monotone, faults } = values::found(&json).expect("the object of a history");
        let report = self.report(text)?.text;
        let verdict = match object.status {
            Status::Atomic => Verdict::Atomic { order: values::order(&report).expect("the order of the report") },
            Status::Regular => Verdict::Regular { faults },
            _ => Verdict::Irregular { faults },
        };
        Ok(Judged { counts, monotone, verdict, report })
    }

    /// As [`report()`].
    pub fn report(self, text: impl AsRef<[u8]>) -> Result<Answer, Error> {
        self.ask(Question::Report, text.as_ref())
    }

    /// As [`report_into()`].
    pub fn report_into(self, text: impl AsRef<[u8]>, room: &mut [u8]) -> Result<(Status, usize), RoomError> {
        library::answer_into(Question::Report, text.as_ref(), self, room)
    }

    /// As [`explain()`].
    pub fn explain(self, text: impl AsRef<[u8]>) -> Result<Answer, Error> {
        self.ask(Question::Explanation { drawn: false, whole: false }, text.as_ref())
    }

    /// As [`explain_drawn()`].
    pub fn explain_drawn(self, text: impl AsRef<[u8]>) -> Result<Answer, Error> {
        self.ask(Question::Explanation { drawn: true, whole: false }, text.as_ref())
    }

    /// As [`explain_all()`].
    pub fn explain_all(self, text: impl AsRef<[u8]>) -> Result<Answer, Error> {
        self.ask(Question::Explanation { drawn: false, whole: true }, text.as_ref())
    }

    /// As [`explain_all_drawn()`].
    pub fn explain_all_drawn(self, text: impl AsRef<[u8]>) -> Result<Answer, Error> {
        self.ask(Question::Explanation { drawn: true, whole: true }, text.as_ref())
    }

    /// As [`explain_faults()`].
    pub fn explain_faults(self, text: impl AsRef<[u8]>, faults: u32) -> Result<Answer, Error> {
        self.ask(Question::Faults { whole: false, faults: faults.clamp(1, MOST_FAULTS) }, text.as_ref())
    }

    /// As [`explain_all_faults()`].
    pub fn explain_all_faults(self, text: impl AsRef<[u8]>, faults: u32) -> Result<Answer, Error> {
        self.ask(Question::Faults { whole: true, faults: faults.clamp(1, MOST_FAULTS) }, text.as_ref())
    }

    /// As [`json()`].
    pub fn json(self, text: impl AsRef<[u8]>, name: &str) -> Result<Answer, Error> {
        self.ask(Question::Object { name }, text.as_ref())
    }

    /// As [`shrink()`].
    pub fn shrink(self, text: impl AsRef<[u8]>) -> Result<Answer, Error> {
        self.ask(Question::Witness, text.as_ref())
    }

    /// As [`shrink_drawn()`].
    pub fn shrink_drawn(self, text: impl AsRef<[u8]>) -> Result<Answer, Error> {
        self.ask(Question::WitnessDrawn, text.as_ref())
    }

    /// As [`shrink_map()`].
    pub fn shrink_map(self, text: impl AsRef<[u8]>) -> Result<Answer, Error> {
        self.ask(Question::WitnessMap, text.as_ref())
    }

    /// As [`draw()`].
    pub fn draw(self, text: impl AsRef<[u8]>, form: Form) -> Result<Answer, Error> {
        self.draw_part(text, form, Part::default())
    }

    /// As [`draw_part()`].
    pub fn draw_part(self, text: impl AsRef<[u8]>, form: Form, part: Part) -> Result<Answer, Error> {
        self.ask(Question::Picture(form, part), text.as_ref())
    }

    /// As [`stats()`].
    pub fn stats(self, text: impl AsRef<[u8]>) -> Result<Stats, Error> {
        let object = self.ask(Question::Stats { object: true }, text.as_ref())?;
        let json = self.history(text.as_ref(), &object)?;
        Ok(values::stats(&json).expect("the counts of a history"))
    }

    /// As [`stats_lines()`].
    pub fn stats_lines(self, text: impl AsRef<[u8]>) -> Result<String, Error> {
        Ok(self.ask(Question::Stats { object: false }, text.as_ref())?.text)
    }
}

/// Judges a history, in the format of `snapjudge check`. The library judges twice: only the report has the order.
///
/// ```
/// use snapjudge::{Error, Fault};
/// let text = "event,process,op,data\nbegin,0,update,0:1:7\nend,0,update,\nbegin,1,view,\nend,1,view,\n";
/// let judged = snapjudge::check(text)?;
/// let Fault::Proximity { view, update: Some(missed), .. } = &judged.faults()[0] else { panic!() };
/// assert_eq!((view.call, view.begin, missed.call, missed.end), (2, 4, 1, Some(3)));
///
/// let error = snapjudge::check("event,process,op,data\nbegin,0,update,0:2:7\n").unwrap_err();
/// assert!(error.to_string().starts_with("refused record 2: number\nan update has the next number of its component"));
/// # Ok::<(), Error>(())
/// ```
///
/// # Errors
///
/// [`Error::Refused`] if the text is not a history, and [`Error::OutOfMemory`].
pub fn check(text: impl AsRef<[u8]>) -> Result<Judged, Error> {
    Judge::default().check(text)
}

/// The status and the report of a text, as `snapjudge check` writes it. A text that is not a history is not an error here, nor in the
/// calls below: the answer says so.
///
/// ```
/// let report = snapjudge::report(b"event,process,op,data\n")?;
/// assert_eq!(report.text, "events 0 calls 0 pending 0 views 0\nregular yes\nmonotone yes\natomic yes\norder 0\n");
/// # Ok::<(), snapjudge::Error>(())
/// ```
pub fn report(text: impl AsRef<[u8]>) -> Result<Answer, Error> {
    Judge::default().report(text)
}

/// The status of a text and the length of its report, which is written to the front of the room. Of an error the room is unchanged.
///
/// ```
/// use snapjudge::{RoomError, Status};
/// let mut room = [0; 64];
/// assert_eq!(snapjudge::report_into("no header\n", &mut room), Ok((Status::Refused, 25)));
/// assert_eq!(&room[..25], b"refused record 1: header\n");
/// assert_eq!(snapjudge::report_into("no header\n", &mut room[..24]), Err(RoomError::TooLittle(25)));
/// ```
pub fn report_into(text: impl AsRef<[u8]>, room: &mut [u8]) -> Result<(Status, usize), RoomError> {
    Judge::default().report_into(text, room)
}

/// What `snapjudge explain` writes: why the history is not atomic, an order if it is, or why the text is not a history.
///
/// ```
/// let why = snapjudge::explain("event,process,op,data\nbegin,0,view,\nend,0,view,0:1:7\n")?;
/// assert!(why.text.starts_with("not regular"));
/// # Ok::<(), snapjudge::Error>(())
/// ```
pub fn explain(text: impl AsRef<[u8]>) -> Result<Answer, Error> {
    Judge::default().explain(text)
}

/// What `snapjudge explain --draw` writes: the sentences of [`explain`], and below them a picture in characters.
///
/// ```
/// let text = "event,process,op,data\nbegin,0,view,\nend,0,view,0:1:7\n";
/// assert!(snapjudge::explain_drawn(text)?.text.starts_with(&snapjudge::explain(text)?.text));
/// # Ok::<(), snapjudge::Error>(())
/// ```
pub fn explain_drawn(text: impl AsRef<[u8]>) -> Result<Answer, Error> {
    Judge::default().explain_drawn(text)
}

/// What `snapjudge explain --all` writes: the sentences of [`explain`], with all entries of the views of a fault.
///
/// ```
/// let text = "event,process,op,data\nbegin,0,view,\nend,0,view,0:1:7\n";
/// assert_eq!(snapjudge::explain_all(text)?, snapjudge::explain(text)?);
/// # Ok::<(), snapjudge::Error>(())
/// ```
pub fn explain_all(text: impl AsRef<[u8]>) -> Result<Answer, Error> {
    Judge::default().explain_all(text)
}

/// What `snapjudge explain --all --draw` writes: the sentences of [`explain_all`], and below them a picture in characters.
///
/// ```
/// let text = "event,process,op,data\nbegin,0,view,\nend,0,view,0:1:7\n";
/// assert!(snapjudge::explain_all_drawn(text)?.text.starts_with(&snapjudge::explain_all(text)?.text));
/// # Ok::<(), snapjudge::Error>(())
/// ```
pub fn explain_all_drawn(text: impl AsRef<[u8]>) -> Result<Answer, Error> {
    Judge::default().explain_all_drawn(text)
}

/// What `snapjudge explain --faults N` writes, with `faults` for N: of each kind the first fault of each of the first N views that have one.
/// N is at least 1 and at most [`MOST_FAULTS`]; a number beyond these is taken for the nearest of them.
///
/// ```
/// let text = "event,process,op,data\nbegin,0,view,\nend,0,view,0:1:7\nbegin,0,view,\nend,0,view,0:1:7\n";
/// assert_eq!(snapjudge::explain_faults(text, 1)?, snapjudge::explain(text)?);
/// assert!(snapjudge::explain_faults(text, 2)?.text.contains("integrity: view 2"));
/// # Ok::<(), snapjudge::Error>(())
/// ```
pub fn explain_faults(text: impl AsRef<[u8]>, faults: u32) -> Result<Answer, Error> {
    Judge::default().explain_faults(text, faults)
}

/// What `snapjudge explain --all --faults N` writes: the sentences of [`explain_faults`], with all entries of the views of a fault.
///
/// ```
/// let text = "event,process,op,data\nbegin,0,view,\nend,0,view,0:1:7\n";
/// assert_eq!(snapjudge::explain_all_faults(text, 5)?, snapjudge::explain_all(text)?);
/// # Ok::<(), snapjudge::Error>(())
/// ```
pub fn explain_all_faults(text: impl AsRef<[u8]>, faults: u32) -> Result<Answer, Error> {
    Judge::default().explain_all_faults(text, faults)
}

/// What `snapjudge check --format json` writes of a file with this name: an object on a line.
///
/// ```
/// let object = snapjudge::json("no header\n", "run.csv")?;
/// assert_eq!(object.text, "{\"name\":\"run.csv\",\"status\":3,\"refused\":{\"record\":1,\"fault\":\"header\"}}\n");
/// # Ok::<(), snapjudge::Error>(())
/// ```
pub fn json(text: impl AsRef<[u8]>, name: &str) -> Result<Answer, Error> {
    Judge::default().json(text, name)
}

/// What `snapjudge shrink` writes: a history of at most four of the calls, which has the first fault.
///
/// ```
/// let view = "begin,0,view,\nend,0,view,0:1:7\n";
/// let text = format!("event,process,op,data\n{view}begin,0,view,\nend,0,view,\n");
/// assert_eq!(snapjudge::shrink(text)?.text, format!("event,process,op,data\n{view}"));
/// # Ok::<(), snapjudge::Error>(())
/// ```
pub fn shrink(text: impl AsRef<[u8]>) -> Result<Answer, Error> {
    Judge::default().shrink(text)
}

/// What `snapjudge shrink --draw` writes: the picture of that history in characters.
///
/// ```
/// let witness = snapjudge::shrink_drawn("event,process,op,data\nbegin,0,view,\nend,0,view,0:1:7\n")?;
/// assert!(witness.text.contains("0:1:7"));
/// # Ok::<(), snapjudge::Error>(())
/// ```
pub fn shrink_drawn(text: impl AsRef<[u8]>) -> Result<Answer, Error> {
    Judge::default().shrink_drawn(text)
}

/// What `snapjudge shrink --map` writes: a line for each call of that history, beside the call of the text that it is.
///
/// ```
/// let text = "event,process,op,data\nbegin,0,view,\nend,0,view,\nbegin,0,view,\nend,0,view,0:1:7\n";
/// assert!(snapjudge::shrink_map(text)?.text.ends_with("\n1,0,2,3,2,0,4,5\n"));
/// # Ok::<(), snapjudge::Error>(())
/// ```
pub fn shrink_map(text: impl AsRef<[u8]>) -> Result<Answer, Error> {
    Judge::default().shrink_map(text)
}

/// What `snapjudge draw` writes, or with a form `snapjudge draw --svg` or `snapjudge draw --text`, or with `--light` or `--dark`.
///
/// ```
/// use snapjudge::{draw, Form};
/// let text = "event,process,op,data\nbegin,0,view,\nend,0,view,\n";
/// assert!(draw(text, Form::Svg)?.text.ends_with("</svg>\n"));
/// assert_ne!(draw(text, Form::DarkSvg)?, draw(text, Form::Svg)?);
/// # Ok::<(), snapjudge::Error>(())
/// ```
pub fn draw(text: impl AsRef<[u8]>, form: Form) -> Result<Answer, Error> {
    Judge::default().draw(text, form)
}

/// What `snapjudge draw` writes with `--calls`, and `--from` or `--around`: a picture of a part of a history.
///
/// ```
/// use snapjudge::{draw_part, Error, Form, Part};
/// let text = "event,process,op,data\nbegin,0,view,\nend,0,view,\nbegin,0,view,\nend,0,view,\n";
/// let last = draw_part(text, Form::Svg, Part { from: 2, ..Part::default() })?.text;
/// assert!(last.contains("call-2") && !last.contains("call-1"));
/// assert_eq!(draw_part(text, Form::Svg, Part { around: 3, ..Part::default() }), Err(Error::NoPart));
/// # Ok::<(), Error>(())
/// ```
pub fn draw_part(text: impl AsRef<[u8]>, form: Form, part: Part) -> Result<Answer, Error> {
    Judge::default().draw_part(text, form, part)
}

/// What a run has shown, such as how many views overlap an update. It is not a verdict.
///
/// ```
/// let text = "event,process,op,data\nbegin,0,update,0:1:7\nbegin,1,view,\nend,1,view,\nend,0,update,\n";
/// let shown = snapjudge::stats(text)?;
/// assert!(shown.shows_concurrency);
/// assert_eq!((shown.overlap_update, shown.unshown, shown.by_component[0].updates), (1, 1, 1));
/// # Ok::<(), snapjudge::Error>(())
/// ```
///
/// # Errors
///
/// Those of [`check`].
pub fn stats(text: impl AsRef<[u8]>) -> Result<Stats, Error> {
    Judge::default().stats(text)
}

/// What `snapjudge stats` writes.
///
/// ```
/// assert!(snapjudge::stats_lines("event,process,op,data\n")?.starts_with("events 0\ncalls 0\n"));
/// # Ok::<(), snapjudge::Error>(())
/// ```
pub fn stats_lines(text: impl AsRef<[u8]>) -> Result<String, Error> {
    Judge::default().stats_lines(text)
}
