//! Answers as the program does, by the crate: ../../../differential.py compares the two.
use snapjudge::{Answer, Call, ComponentStats, Difference, Entry, Error, Fault, Form, Judge, Judged, NamedUpdate, Op};
use snapjudge::{Part, Refusal, Side, Status, Verdict};
use std::io::{self, BufRead, Read, Write};

/// What the command answers.
fn answer(judge: Judge, words: &str, text: &[u8]) -> Result<Answer, Error> {
    match words {
        "check" => judge.report(text),
        "explain" => judge.explain(text),
        "explain --draw" => judge.explain_drawn(text),
        "explain --all" => judge.explain_all(text),
        "explain --all --draw" => judge.explain_all_drawn(text),
        "check --format json" => judge.json(text, "-"),
        "shrink" => judge.shrink(text),
        "shrink --draw" => judge.shrink_drawn(text),
        "shrink --map" => judge.shrink_map(text),
        "explain --faults 3" => judge.explain_faults(text, 3),
        "explain --all --faults 3" => judge.explain_all_faults(text, 3),
        "draw" => judge.draw(text, Form::Page),
        "draw --svg" => judge.draw(text, Form::Svg),
        "draw --text" => judge.draw(text, Form::Lines),
        "draw --light" => judge.draw(text, Form::LightPage),
        "draw --dark" => judge.draw(text, Form::DarkPage),
        "draw --svg --calls 5" => judge.draw_part(text, Form::Svg, Part { calls: 5, ..Default::default() }),
        "draw --svg --dark" => judge.draw(text, Form::DarkSvg),
        "stats" => judge.stats_lines(text).map(stats_lines),
        "stats --format json" => stats(judge, text),
        "values" => values(judge, text),
        _ => panic!("there is no command {words}"),
    }
}

/// The lines of what a run has shown. The program ends with 0, unless the text is not a history.
fn stats_lines(text: String) -> Answer {
    let status = if text.starts_with("refused ") { Status::Refused } else { Status::Atomic };
    Answer { status, text }
}

/// What a run has shown, written as the program writes its object.
fn stats(judge: Judge, text: &[u8]) -> Result<Answer, Error> {
    let shown = match judge.stats(text) {
        Err(Error::Refused(refusal)) => return Ok(Answer { status: Status::Refused, text: refused(&refusal) }),
        shown => shown?,
    };
    let mut text = "{\"name\":\"-\",\"status\":0".to_owned();
    for (name, number) in [
        ("events", shown.events),
        ("calls", shown.calls),
        ("pending", shown.pending),
        ("views", shown.views),
        ("updates", shown.updates),
        ("processes", shown.processes),
        ("components", shown.components),
        ("overlap_update", shown.overlap_update),
        ("overlap_view", shown.overlap_view),
        ("overlap_nothing", shown.overlap_nothing),
        ("unshown", shown.unshown),
        ("most_open", shown.most_open),
        ("longest", shown.longest),
    ] {
        text += &format!(",\"{name}\":{number}");
    }
    let by_component: Vec<String> = shown.by_component.iter().map(component_stats).collect();
    let components = by_component.join(",");
    text += &format!(",\"shows_concurrency\":{},\"by_component\":[{components}]}}\n", shown.shows_concurrency);
    Ok(Answer { status: Status::Atomic, text })
}

fn component_stats(shown: &ComponentStats) -> String {
    let front = format!("\"component\":{},\"writer\":{}", shown.component, shown.writer);
    format!("{{{front},\"updates\":{},\"views\":{}}}", shown.updates, shown.views)
}

/// The object of a text that is not a history.
fn refused(refusal: &Refusal) -> String {
    let object = format!("\"record\":{},\"fault\":\"{}\"", refusal.record, refusal.word);
    format!("{{\"name\":\"-\",\"status\":3,\"refused\":{{{object}}}}}\n")
}

/// The values of a text, written as the program writes them: its object, and below it the order of the report. Of a text that is not a
/// history they are the object and the sentences.
fn values(judge: Judge, text: &[u8]) -> Result<Answer, Error> {
    match judge.check(text) {
        Err(Error::Refused(refusal)) => {
            let text = refused(&refusal) + &format!("{}\n", Error::Refused(refusal));
            Ok(Answer { status: Status::Refused, text })
        }
        judged => judged.map(|judged| of_history(&judged)),
    }
}

fn of_history(judged: &Judged) -> Answer {
    let (status, order) = match &judged.verdict {
        Verdict::Atomic { order } => (Status::Atomic, order.as_slice()),
        Verdict::Regular { .. } => (Status::Regular, &[][..]),
        Verdict::Irregular { .. } => (Status::Irregular, &[][..]),
    };
    let counts = judged.counts;
    let mut text = format!("{{\"name\":\"-\",\"status\":{}", status as u32);
    text += &format!(
        ",\"events\":{},\"calls\":{},\"pending\":{},\"views\":{}",
        counts.events, counts.calls, counts.pending, counts.views
    );
    text += &format!(
        ",\"regular\":{},\"monotone\":{},\"atomic\":{}",
        judged.is_regular(),
        judged.monotone,
        judged.is_atomic()
    );
    for kind in ["integrity", "proximity", "read", "write"] {
        let object = judged.faults().iter().map(fault).find(|it| it.0 == kind).map(|it| it.1);
        text += &format!(",\"{kind}\":{}", object.as_deref().unwrap_or("null"));
    }
    text += "}\n";
    for step in order {
        let (op, entries) = op(&step.op);
        text += &format!("{} p{} {op}", step.call, step.process);
        for entry in entries {
            text += &format!(" {}:{}:{}", entry.component, entry.number, entry.value);
        }
        text += "\n";
    }
    Answer { status, text }
}

fn op(op: &Op) -> (&'static str, &[Entry]) {
    match op {
        Op::Update(entry) => ("update", std::slice::from_ref(entry)),
        Op::View(entries) => ("view", entries),
    }
}

fn entry(entry: &Entry) -> String {
    format!("{{\"component\":{},\"number\":{},\"value\":{}}}", entry.component, entry.number, entry.value)
}

fn call(call: &Call) -> String {
    let (op, entries) = op(&call.op);
    let entries: Vec<String> = entries.iter().map(entry).collect();
    let end = call.end.map_or("null".to_owned(), |end| end.to_string());
    let front = format!("\"call\":{},\"process\":{},\"op\":\"{op}\"", call.call, call.process);
    format!("{{{front},\"begin\":{},\"end\":{end},\"entries\":[{}]}}", call.begin, entries.join(","))
}

fn maybe(update: &Option<Call>) -> String {
    update.as_ref().map_or("null".to_owned(), call)
}

fn named(update: &NamedUpdate) -> String {
    format!("{{\"component\":{},\"number\":{},\"update\":{}}}", update.component, update.number, maybe(&update.call))
}

fn difference(it: &Difference) -> String {
    let numbers = format!("\"view_number\":{},\"other_number\":{}", it.view_number, it.other_number);
    format!("{{\"component\":{},{numbers},\"update\":{}}}", it.component, maybe(&it.update))
}

/// The kind of a fault, and its object.
fn fault(fault: &Fault) -> (&'static str, String) {
    let (kind, count, view, rest) = match fault {
        Fault::Integrity { count, view, entry: shown, update } => {
            ("integrity", count, view, format!("\"entry\":{},\"update\":{}", entry(shown), maybe(update)))
        }
        Fault::Proximity { count, view, component, number, side, update } => {
            let side = if *side == Side::Old { "old" } else { "early" };
            let front = format!("\"component\":{component},\"number\":{number},\"side\":\"{side}\"");
            ("proximity", count, view, format!("{front},\"update\":{}", maybe(update)))
        }
        Fault::Read { count, view, other, component, differs } => {
            let differs: Vec<String> = differs.iter().map(difference).collect();
            let front = format!("\"other\":{},\"component\":{component}", call(other));
            ("read", count, view, format!("{front},\"differs\":[{}]", differs.join(",")))
        }
        Fault::Write { count, view, misses, shows } => {
            ("write", count, view, format!("\"misses\":{},\"shows\":{}", named(misses), named(shows)))
        }
    };
    (kind, format!("{{\"count\":{count},\"view\":{},{rest}}}", call(view)))
}

fn main() -> io::Result<()> {
    let (mut input, mut output) = (io::stdin().lock(), io::stdout().lock());
    let mut line = String::new();
    while input.read_line(&mut line)? > 0 {
        let (length, words) = line.trim_end().split_once(' ').expect("a length and a command");
        let mut text = vec![0; length.parse().expect("a length")];
        input.read_exact(&mut text)?;
        let (judge, words) = match words.strip_suffix(" --writers many") {
            Some(words) => (Judge::default().with_many_writers(), words),
            None => (Judge::default(), words),
        };
        let answer = answer(judge, words, &text).expect("an answer");
        write!(output, "{} {}\n{}", answer.status as u32, answer.text.len(), answer.text)?;
        output.flush()?;
        line.clear();
    }
    Ok(())
}
