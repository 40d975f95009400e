//! Refused memory leaves the room as it was. The limit is the process's, and a second thread would have memory in store: so
//! this test is a program of its own, with one thread.
use snapjudge::{report_into, RoomError, Status};
use std::fmt::Write;
use std::fs;

#[repr(C)]
struct Limit {
    soft: u64,
    hard: u64,
}

const ADDRESS_SPACE: i32 = 9;

extern "C" {
    fn getrlimit(resource: i32, limit: *mut Limit) -> i32;
    fn setrlimit(resource: i32, limit: *const Limit) -> i32;
}

// How many bytes of addresses this process has.
fn held() -> u64 {
    let pages = fs::read_to_string("/proc/self/statm").unwrap();
    4096 * pages.split(' ').next().unwrap().parse::<u64>().unwrap()
}

fn main() {
    let mut text = String::from("event,process,op,data\n");
    for number in 1..=8192 {
        write!(text, "begin,0,update,0:{number}:0\nend,0,update,\n").unwrap();
    }
    let mut room = vec![0xEE; 1 << 20];
    let mut limit = Limit { soft: 0, hard: 0 };
    // SAFETY: the limit is read and set by the C library's own calls, from a struct of their layout.
    let found = unsafe {
        assert_eq!(getrlimit(ADDRESS_SPACE, &mut limit), 0);
        let tight = Limit { soft: held() + 65536, hard: limit.hard };
        assert_eq!(setrlimit(ADDRESS_SPACE, &tight), 0);
        let found = report_into(text.as_bytes(), &mut room);
        assert_eq!(setrlimit(ADDRESS_SPACE, &limit), 0);
        found
    };
    assert_eq!(found, Err(RoomError::OutOfMemory));
    assert!(room.iter().all(|byte| *byte == 0xEE));
    assert_eq!(report_into(text.as_bytes(), &mut room).map(|found| found.0), Ok(Status::Atomic));
}
