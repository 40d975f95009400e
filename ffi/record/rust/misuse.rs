//! The recorder's texts of two worked runs, and the fault of each misuse.
mod snaprecord;

use snaprecord::{Entry, Fault, Log, Recorder, Views, EVENT_LIMIT};

fn recorder(threads: usize, components: usize, calls: usize) -> Recorder {
    Recorder::new(threads, components, calls).expect("within the limits")
}

fn update(log: &mut Log, component: u32, value: u32) {
    if log.begin_update(component, value).is_some() {
        log.end_update();
    }
}

fn view(log: &mut Log, values: &[u32]) {
    if log.begin_view() {
        log.end_view_values(values);
    }
}

#[test]
fn a_worked_run_has_its_text() {
    let mut r = recorder(2, 2, 6);
    let [writer, viewer] = r.logs.as_mut_slice() else { panic!("two logs") };
    assert_eq!(writer.begin_update(0, 7), Some(1));
    view(viewer, &[7, 0]);
    writer.end_update();
    assert_eq!(writer.begin_update(0, 8), Some(2));
    writer.end_update();
    assert!(viewer.begin_view());
    viewer.end_view(&[Entry { component: 0, number: 2, value: 8 }, Entry { component: 1, number: 0, value: 0 }]);
    assert!(viewer.begin_view());
    viewer.drop_view();
    view(viewer, &[99, 0]); // nobody wrote 99
    assert_eq!(r.text().as_deref(), Ok(include_str!("../worked.csv")));
    assert_eq!(r.views(), Views { ended: 3, overlapping: 1 });
}

#[test]
fn failed_calls_have_their_text() {
    let mut r = recorder(3, 2, 6);
    r.initials = vec![5, 6];
    let [writer, viewer, spare] = r.logs.as_mut_slice() else { panic!("three logs") };
    assert_eq!(writer.begin_update(0, 7), Some(1));
    writer.drop_update();
    assert_eq!(writer.begin_update(0, 7), Some(1));
    view(viewer, &[5, 6]);
    writer.end_update();
    view(viewer, &[7, 6]);
    assert_eq!(writer.begin_update(1, 8), Some(1)); // it is not known whether this one had an effect
    view(viewer, &[7, 8]);
    view(spare, &[7, 8]);
    assert_eq!(r.text().as_deref(), Ok(include_str!("../failed.csv")));
    assert_eq!(r.views(), Views { ended: 4, overlapping: 3 });
}

/// What there is while a call is open; and later all.
#[test]
fn what_there_is_so_far() {
    let mut r = recorder(2, 1, 2);
    let so_far = r.so_far();
    assert_eq!(r.logs[0].begin_update(0, 7), Some(1));
    view(&mut r.logs[1], &[7]);
    let events = "0,begin,0,update,0:1:7\n1,begin,1,view,\n2,end,1,view,0:1:7\n";
    assert_eq!(so_far.text(), Ok(format!("at,event,process,op,data\n{events}")));
    r.logs[0].end_update();
    assert_eq!(so_far.text(), r.text());
}

/// A process that dies by a panic leaves what it recorded.
#[test]
fn a_panic_keeps_what_there_is() {
    let path = std::env::temp_dir().join(format!("snaprecord-{}.csv", std::process::id()));
    let mut r = recorder(1, 1, 2);
    r.so_far().keep(&path);
    let died = std::thread::scope(|scope| {
        let log = &mut r.logs[0];
        let thread = scope.spawn(move || {
            assert_eq!(log.begin_update(0, 7), Some(1));
            panic!("the object dies");
        });
        thread.join().is_err()
    });
    let _ = std::panic::take_hook();
    let text = std::fs::read_to_string(&path).expect("the file is there");
    std::fs::remove_file(&path).expect("it can go");
    assert!(died);
    assert_eq!(text, "at,event,process,op,data\n0,begin,0,update,0:1:7\n");
}

#[test]
fn a_dropped_update_that_was_seen_is_a_value_nobody_wrote() {
    let mut r = recorder(2, 1, 2);
    assert_eq!(r.logs[0].begin_update(0, 9), Some(1));
    view(&mut r.logs[1], &[9]);
    r.logs[0].drop_update();
    assert_eq!(r.text().as_deref(), Ok("at,event,process,op,data\n1,begin,1,view,\n2,end,1,view,0:1:9\n"));
}

/// The values of the last view of one history are the first ones of the next, which may write older ones again.
#[test]
fn a_history_goes_on_from_another() {
    let mut r = recorder(1, 2, 4);
    r.initials = vec![7, 0];
    view(&mut r.logs[0], &[7, 0]);
    update(&mut r.logs[0], 0, 0);
    view(&mut r.logs[0], &[0, 0]);
    let events = "0,begin,0,view,\n1,end,0,view,\n2,begin,0,update,0:1:0\n3,end,0,update,\n4,begin,0,view,\n5,end,0,view,0:1:0\n";
    assert_eq!(r.text(), Ok(format!("at,event,process,op,data\n{events}")));
}

#[test]
#[should_panic(expected = "index out of bounds")]
fn a_log_that_there_is_not_panics() {
    view(&mut recorder(2, 1, 1).logs[2], &[0]);
}

#[test]
fn a_dropped_update_leaves_its_room() {
    let mut r = recorder(1, 1, 1);
    for _ in 0..100 {
        assert_eq!(r.logs[0].begin_update(0, 1), Some(1));
        r.logs[0].drop_update();
    }
}

#[test]
fn more_than_the_judge_takes_is_refused() {
    for (threads, components, calls) in [(0, 1, 1), (65537, 1, 1), (1, 257, 1), (2, 1, EVENT_LIMIT / 4 + 1), (1, 1, 0)] {
        assert_eq!(Recorder::new(threads, components, calls).err(), Some(Fault::Limits));
    }
    recorder(2, 256, 100);
    recorder(16, 1, EVENT_LIMIT / 32);
}

#[test]
fn a_full_log_stops_all_threads_and_is_a_history() {
    let mut r = recorder(2, 1, 2);
    update(&mut r.logs[0], 0, 1);
    update(&mut r.logs[0], 0, 2);
    assert_eq!(r.logs[0].begin_update(0, 3), None);
    assert!(!r.logs[1].begin_view());
    assert!(r.text().is_ok());
    r.logs[0].end_update();
    assert_eq!(r.text(), Err(Fault::AfterFull { thread: 0 }));
}

#[test]
fn a_nested_call_is_told_and_stops_all_threads() {
    let mut r = recorder(2, 1, 4);
    assert_eq!(r.logs[0].begin_update(0, 1), Some(1));
    assert!(!r.logs[0].begin_view());
    assert!(!r.logs[1].begin_view());
    assert_eq!(r.text(), Err(Fault::Nested { thread: 0 }));
}

#[test]
fn an_end_without_its_begin_is_told() {
    let mut r = recorder(2, 1, 4);
    r.logs[1].end_update();
    assert_eq!(r.text(), Err(Fault::NotOpen { thread: 1 }));
    let mut r = recorder(1, 1, 4);
    assert!(r.logs[0].begin_view());
    r.logs[0].end_update();
    assert_eq!(r.text(), Err(Fault::NotOpen { thread: 0 }));
}

#[test]
fn an_end_of_a_view_without_its_begin_is_told() {
    let ends: [fn(&mut Log); 3] =
        [|log| log.end_view_values(&[0]), |log| log.end_view(&[Entry { component: 0, number: 0, value: 0 }]), Log::drop_view];
    for end in ends {
        for updates in [false, true] {
            let mut r = recorder(1, 1, 4);
            assert!(!updates || r.logs[0].begin_update(0, 1).is_some());
            end(&mut r.logs[0]);
            assert_eq!(r.text(), Err(Fault::NotOpen { thread: 0 }));
        }
    }
}

#[test]
fn an_update_dropped_without_its_begin_is_told() {
    for views in [false, true] {
        let mut r = recorder(1, 1, 4);
        assert!(!views || r.logs[0].begin_view());
        r.logs[0].drop_update();
        assert_eq!(r.text(), Err(Fault::NotOpen { thread: 0 }));
    }
}

#[test]
fn a_view_of_a_part_is_told() {
    let mut r = recorder(1, 2, 4);
    view(&mut r.logs[0], &[0]);
    assert_eq!(r.text(), Err(Fault::Part { thread: 0 }));
    let mut r = recorder(1, 2, 4);
    view(&mut r.logs[0], &[0, 0, 0]);
    assert_eq!(r.text(), Err(Fault::Component { thread: 0 }));
}

#[test]
fn initial_values_that_are_too_few_or_too_many_are_told() {
    for initials in [vec![4], vec![4, 5, 6]] {
        let mut r = recorder(1, 2, 4);
        r.initials = initials;
        assert_eq!(r.text(), Err(Fault::Initials));
    }
}

#[test]
fn a_wrong_component_is_told() {
    let mut r = recorder(1, 2, 4);
    assert_eq!(r.logs[0].begin_update(2, 1), None);
    assert_eq!(r.text(), Err(Fault::Component { thread: 0 }));
    let mut r = recorder(1, 2, 4);
    assert!(r.logs[0].begin_view());
    r.logs[0].end_view(&[Entry { component: 1, number: 1, value: 1 }, Entry { component: 0, number: 1, value: 1 }]);
    assert_eq!(r.text(), Err(Fault::Component { thread: 0 }));
    let mut r = recorder(1, 2, 4);
    assert!(r.logs[0].begin_view());
    r.logs[0].end_view(&[Entry { component: 2, number: 1, value: 1 }]);
    assert_eq!(r.text(), Err(Fault::Component { thread: 0 }));
}

#[test]
fn two_writers_are_told() {
    let mut r = recorder(2, 2, 4);
    update(&mut r.logs[0], 1, 5);
    update(&mut r.logs[1], 1, 6);
    assert_eq!(r.text(), Err(Fault::TwoWriters { component: 1 }));
}

#[test]
fn a_value_that_has_no_one_number_is_told() {
    let mut r = recorder(1, 2, 4);
    update(&mut r.logs[0], 1, 5);
    update(&mut r.logs[0], 1, 5);
    assert!(r.text().is_ok());
    view(&mut r.logs[0], &[0, 5]);
    assert_eq!(r.text(), Err(Fault::SameValue { component: 1, value: 5 }));
    let mut r = recorder(1, 1, 4);
    r.initial = 5;
    update(&mut r.logs[0], 0, 5);
    view(&mut r.logs[0], &[5]);
    assert_eq!(r.text(), Err(Fault::SameValue { component: 0, value: 5 }));
    for component in 0..2 {
        let mut r = recorder(1, 2, 4);
        r.initials = vec![4, 5];
        update(&mut r.logs[0], component, 5);
        view(&mut r.logs[0], &[5, 5]);
        assert_eq!(r.text().err(), (component == 1).then_some(Fault::SameValue { component, value: 5 }));
    }
}

#[test]
fn a_log_that_is_missing_is_told() {
    let mut r = recorder(2, 1, 1);
    r.logs.swap(0, 1);
    assert_eq!(r.text(), Err(Fault::LogMissing));
    r.logs.pop();
    assert_eq!(r.text(), Err(Fault::LogMissing));
}

/// How many pages this process was given so far, without a read from a disk.
fn pages() -> u64 {
    let told = std::fs::read_to_string("/proc/thread-self/stat").expect("a Linux");
    told.split(' ').nth(9).and_then(|field| field.parse().ok()).expect("a number of faults")
}

/// The logs take some 3,000 pages, and all of them are there before.
#[test]
fn no_page_is_made_while_calls_are_recorded() {
    let mut r = recorder(1, 64, 16000);
    let before = pages();
    for _ in 0..16000 {
        view(&mut r.logs[0], &[0; 64]);
    }
    assert!(pages() - before < 300);
    assert_eq!(r.views(), Views { ended: 16000, overlapping: 0 });
}
