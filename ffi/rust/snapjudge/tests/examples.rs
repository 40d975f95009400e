//! The examples of the project, by their reports.
use snapjudge::{check, report, report_into, Answer, Call, Counts, Difference, Entry, Error, Fault, Judge, NamedUpdate};
use snapjudge::{Op, Refusal, RoomError, Side, Status, Step, Verdict};
use std::path::Path;
use std::{fs, thread};

struct Example {
    name: String,
    text: String,
    report: String,
}

fn examples() -> Vec<Example> {
    let folder = Path::new(env!("CARGO_MANIFEST_DIR")).join("../../../examples");
    let mut found = Vec::new();
    for file in fs::read_dir(folder).unwrap() {
        let path = file.unwrap().path();
        if path.extension().is_some_and(|word| word == "csv") {
            found.push(Example {
                name: path.display().to_string(),
                text: fs::read_to_string(&path).unwrap(),
                report: fs::read_to_string(path.with_extension("report")).unwrap(),
            });
        }
    }
    assert!(found.len() >= 10);
    found
}

fn status_of(report: &str) -> Status {
    if report.starts_with("refused") {
        Status::Refused
    } else if report.contains("regular no") {
        Status::Irregular
    } else if report.contains("atomic no") {
        Status::Regular
    } else {
        Status::Atomic
    }
}

fn judge(example: &Example) {
    let name = &example.name;
    let wanted = status_of(&example.report);
    assert_eq!(report(&example.text).unwrap(), Answer { status: wanted, text: example.report.clone() }, "{name}");
    match check(&example.text) {
        Err(Error::Refused(refusal)) => {
            assert_eq!(example.report, format!("refused record {}: {}\n", refusal.record, refusal.word), "{name}");
        }
        Err(error) => panic!("{name}: {error}"),
        Ok(judged) => {
            assert_eq!(judged.report, example.report, "{name}");
            assert_eq!(judged.is_atomic(), wanted == Status::Atomic, "{name}");
            assert_eq!(judged.is_regular(), wanted != Status::Irregular, "{name}");
        }
    }
}

#[test]
fn eight_threads_of_128_kib_get_each_examples_report() {
    let examples = examples();
    thread::scope(|scope| {
        for _ in 0..8 {
            thread::Builder::new()
                .stack_size(128 * 1024)
                .spawn_scoped(scope, || examples.iter().for_each(judge))
                .unwrap();
        }
    });
}

#[test]
fn too_little_room_is_told_and_stays_as_it_was() {
    for example in examples() {
        let length = example.report.len();
        let mut room = vec![0xEE; length + 1];
        let found = report_into(example.text.as_bytes(), &mut room[..length - 1]);
        assert_eq!(found, Err(RoomError::TooLittle(length)));
        assert!(room.iter().all(|byte| *byte == 0xEE));
        let found = report_into(example.text.as_bytes(), &mut room[..length]);
        assert_eq!(found, Ok((status_of(&example.report), length)));
        assert_eq!((&room[..length], room[length]), (example.report.as_bytes(), 0xEE));
    }
}

// The record and the word of a text that is not a history.
fn refused(judge: Judge, text: &str) -> (u32, String) {
    match judge.check(text) {
        Err(Error::Refused(Refusal { record, word, .. })) => (record, word),
        other => panic!("{other:?}"),
    }
}

#[test]
fn the_caller_chooses_the_limit_of_events() {
    let view = "event,process,op,data\nbegin,0,view,\nend,0,view,\n";
    assert_eq!(refused(Judge::of(1), view), (3, "toomany".to_owned()));
    assert_eq!(Judge::of(2).check(view).unwrap().counts, Counts { events: 2, calls: 1, pending: 0, views: 1 });
    let updates: String = (1..=32_769).map(|n| format!("begin,0,update,0:{n}:0\nend,0,update,\n")).collect();
    let updates = format!("event,process,op,data\n{updates}");
    assert_eq!(refused(Judge::default(), &updates), (65_538, "toomany".to_owned()));
    assert_eq!(Judge::of(65_538).check(&updates).unwrap().counts.events, 65_538);
}

#[test]
fn a_limit_that_there_is_not_is_told_and_the_room_stays_as_it_was() {
    // to the library the last but one is a limit of one event with many writers
    for events in [0, (1 << 20) + 1, 1 << 31, (1 << 31) + 1, u32::MAX] {
        for judge in [Judge::of(events), Judge::of(events).with_many_writers()] {
            let mut room = [0xEE; 100];
            let found = judge.report_into("event,process,op,data\n", &mut room);
            assert_eq!(found, Err(RoomError::NoLimit(events)));
            assert_eq!(room, [0xEE; 100]);
            assert_eq!(judge.check("event,process,op,data\n"), Err(Error::NoLimit(events)));
        }
    }
}

#[test]
fn a_component_has_many_writers_where_the_caller_says_so() {
    let begins = "event,process,op,data\nbegin,0,update,0:1:5\nbegin,1,update,0:2:6\n";
    let text = format!("{begins}end,0,update,\nend,1,update,\n");
    let many = Judge::default().with_many_writers();
    assert_eq!(refused(Judge::default(), &text), (3, "writer".to_owned()));
    let judged = many.check(&text).unwrap();
    let verdicts = "events 4 calls 2 pending 0 views 0\nregular yes\nmonotone yes\natomic yes\n";
    assert_eq!(judged.report, format!("{verdicts}order 2\n1 p0 update 0:1:5\n2 p1 update 0:2:6\n"));
    let step = |call, process, number, value| Step { call, process, op: Op::Update(Entry { component: 0, number, value }) };
    assert_eq!(judged.verdict, Verdict::Atomic { order: vec![step(1, 0, 1, 5), step(2, 1, 2, 6)] });
    assert_eq!(many.report(&text).unwrap(), Answer { status: Status::Atomic, text: judged.report });
    assert_eq!(many.shrink(&text).unwrap(), Answer { status: Status::Atomic, text: text.clone() });
    assert_eq!(many.draw(&text, snapjudge::Form::Page).unwrap().status, Status::Atomic);
    let shown = many.stats(&text).unwrap();
    assert_eq!((shown.updates, shown.processes, shown.by_component[0].writer), (2, 2, 0));
    assert_eq!(refused(many, &format!("{begins}end,1,update,\nend,0,update,\n")), (4, "order".to_owned()));
    assert_eq!(refused(Judge::of(3).with_many_writers(), &text), (5, "toomany".to_owned()));
    assert_eq!(many.with_many_writers(), many);
}

#[test]
fn an_order_is_taken_apart() {
    let text = "event,process,op,data\nbegin,0,update,0:1:3\nbegin,1,view,\nend,1,view,\nend,0,update,\n";
    let entry = Entry { component: 0, number: 1, value: 3 };
    let order =
        vec![Step { call: 2, process: 1, op: Op::View(vec![]) }, Step { call: 1, process: 0, op: Op::Update(entry) }];
    assert_eq!(check(text).unwrap().verdict, Verdict::Atomic { order });
}

#[test]
fn a_text_that_is_not_a_history_is_an_error_with_the_sentences() {
    let error = check("event,process,op,data\nbegin,0,update,0:2:7\n").unwrap_err();
    let sentences = [
        "refused record 2: number",
        "an update has the next number of its component, which is one more than the updates of it that began before",
        "  record 2 has the fields \"begin\" \"0\" \"update\" \"0:2:7\"",
    ];
    assert_eq!(error.to_string(), sentences.join("\n"));
    let boxed: Box<dyn std::error::Error> = error.into();
    assert!(boxed.source().is_none());
}

// A view with more entries than an explanation lists by itself, of which one belongs to the fault.
#[test]
fn all_entries_of_a_large_view_are_told_if_they_are_asked_for() {
    let (mut rows, mut shown) = (String::new(), Vec::new());
    for component in 0..20 {
        rows += &format!("begin,{component},update,{component}:1:7\nend,{component},update,\n");
        shown.push(format!("{component}:1:{}", if component == 3 { 8 } else { 7 }));
    }
    let shown = shown.join(" ");
    let text = format!("event,process,op,data\n{rows}begin,20,view,\nend,20,view,{shown}\n");
    let (few, all) = (snapjudge::explain(&text).unwrap(), snapjudge::explain_all(&text).unwrap());
    assert!(few.text.contains(" more entries\n") && !few.text.contains(&shown));
    assert!(!all.text.contains(" more entries\n") && all.text.contains(&format!("view {shown}\n")));
    assert_eq!((few.status, all.status), (Status::Irregular, Status::Irregular));
    assert!(snapjudge::explain_all_drawn(&text).unwrap().text.starts_with(&all.text));
}

#[test]
fn each_form_of_a_picture_has_its_colours() {
    use snapjudge::{draw, Form};
    for example in examples().iter().filter(|it| status_of(&it.report) != Status::Refused) {
        let forms = [Form::Page, Form::LightPage, Form::DarkPage].map(|form| draw(&example.text, form).unwrap());
        assert!(forms.iter().all(|it| it.status == forms[0].status && it.text.ends_with("</html>\n")));
        let (light, dark) = (draw(&example.text, Form::Svg).unwrap(), draw(&example.text, Form::DarkSvg).unwrap());
        assert!(light.text.contains("snapjudge-light") && !light.text.contains("snapjudge-dark"));
        assert!(dark.text.contains("snapjudge-dark") && !dark.text.contains("snapjudge-light"));
    }
}

// A call that has ended.
fn call(call: u32, process: u16, records: (u32, u32), op: Op) -> Call {
    Call { call, process, op, begin: records.0, end: Some(records.1) }
}

fn faults_of(records: &str) -> Vec<Fault> {
    check(format!("event,process,op,data\n{records}")).unwrap().faults().to_vec()
}

#[test]
fn local_faults_are_taken_apart() {
    let entry = Entry { component: 0, number: 1, value: 9 };
    let written = Entry { component: 0, number: 1, value: 7 };
    let update = call(1, 0, (2, 3), Op::Update(written));
    assert_eq!(
        faults_of("begin,0,update,0:1:7\nend,0,update,\nbegin,1,view,\nend,1,view,\nbegin,2,view,\nend,2,view,0:1:9\n"),
        [
            Fault::Integrity {
                count: 1,
                view: call(3, 2, (6, 7), Op::View(vec![entry])),
                entry,
                update: Some(update.clone())
            },
            Fault::Proximity {
                count: 1,
                view: call(2, 1, (4, 5), Op::View(vec![])),
                component: 0,
                number: 0,
                side: Side::Old,
                update: Some(update),
            },
        ]
    );
    assert_eq!(
        faults_of("begin,1,view,\nend,1,view,0:1:7\nbegin,0,update,0:1:7\n"),
        [Fault::Proximity {
            count: 1,
            view: call(1, 1, (2, 3), Op::View(vec![written])),
            component: 0,
            number: 1,
            side: Side::Early,
            update: Some(Call { end: None, ..call(2, 0, (4, 0), Op::Update(written)) }),
        }]
    );
    assert_eq!(
        faults_of("begin,2,view,\nend,2,view,0:1:9\n"),
        [Fault::Integrity { count: 1, view: call(1, 2, (2, 3), Op::View(vec![entry])), entry, update: None }]
    );
}

#[test]
fn faults_of_several_calls_are_taken_apart() {
    let entry = |component, value| Entry { component, number: 1, value };
    assert_eq!(
        faults_of("begin,0,update,0:1:7\nbegin,1,view,\nend,1,view,0:1:7\nbegin,2,view,\nend,2,view,\nend,0,update,\n"),
        [Fault::Read {
            count: 1,
            view: call(2, 1, (3, 4), Op::View(vec![entry(0, 7)])),
            other: call(3, 2, (5, 6), Op::View(vec![])),
            component: 0,
            differs: vec![Difference { component: 0, view_number: 1, other_number: 0, update: Some(call(1, 0, (2, 7), Op::Update(entry(0, 7)))) }],
        }]
    );
    let misses = call(2, 0, (3, 4), Op::Update(entry(0, 7)));
    let shows = call(3, 1, (5, 6), Op::Update(entry(1, 8)));
    assert_eq!(
        faults_of("begin,2,view,\nbegin,0,update,0:1:7\nend,0,update,\nbegin,1,update,1:1:8\nend,1,update,\nend,2,view,1:1:8\n"),
        [Fault::Write {
            count: 1,
            view: call(1, 2, (2, 7), Op::View(vec![entry(1, 8)])),
            misses: NamedUpdate { component: 0, number: 1, call: Some(misses) },
            shows: NamedUpdate { component: 1, number: 1, call: Some(shows) },
        }]
    );
}
