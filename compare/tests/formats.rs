//! Table files, command lines, and what is printed for scripts.

mod common;

use common::{ONE, PAIR};
use model::answer::{reply, Reply};
use model::file;
use model::words::list;

fn asked(words: &str, table: &str) -> Reply {
    let words: Vec<String> = words.split(' ').map(String::from).collect();
    reply(&words, table.as_bytes())
}

fn refused(words: &str, table: &str) -> bool {
    let reply = asked(words, table);
    reply.status == 1 && reply.out.is_empty() && !reply.faults.is_empty()
}

#[test]
fn table_files() {
    let plain = file::read(PAIR.as_bytes());
    let other = b"# a\xff\n\r\n \tH\t003 3  2 3 0#0\r\n\n00\0#"; // a word that is no task
    assert!(file::read(other).is_err());
    let other = b"# a\xff\n\r\n \tH\t003 3  2 3 0#0\r\n\nL 3 3 2 2 0000000000000000000000 #\xff";
    assert_eq!(file::read(other), plain);
    assert!(file::read(b"").expect("no fault").tasks().is_empty());
    let broken = include_str!("../../examples/broken.table");
    let faults = file::read(broken.as_bytes()).expect_err("faults");
    let lines: Vec<&str> = faults.iter().filter_map(|fault| fault.split(':').next()).collect();
    let expected = [2, 3, 4, 5, 6, 7, 8, 18].map(|line| format!("line {line}"));
    assert_eq!(lines, expected);
    for wrong in ["h 3 3 2 3 0", "H 3 3 2 3", "H 3 3 2 3 0 0", "H +3 3 2 3 0", "H 3 3 2 3 256"] {
        assert!(file::read(wrong.as_bytes()).is_err());
    }
}

#[test]
fn lists() {
    assert_eq!(list(""), Some(vec![]));
    assert_eq!(list("1,02,255"), Some(vec![1, 2, 255]));
    for wrong in ["1,", ",1", "1,,2", "256", "-1", "+1", "1, 2", " ", ","] {
        assert_eq!(list(wrong), None);
    }
}

#[test]
fn checks() {
    let pair = asked("check - --porcelain", PAIR);
    assert_eq!(pair.out, "answer unschedulable 11 12\ntrace 1 2 9 10\nforced 9\nlate 2\n");
    assert_eq!(pair.status, 0);
    assert_eq!(asked("check --porcelain --nodes 4097", ONE).out, "answer 10 0 0\n");
    assert_eq!(asked("check --porcelain --visits 1000000", ONE).out, "answer 10 0 0\n");
    assert_eq!(asked("check --nodes 10 --porcelain", PAIR).out, "answer 12 10 11\n");
    assert_eq!(asked("check --visits 011 --porcelain", PAIR).out, "answer 11 11 11\n");
    let required = asked("check --require-schedulable --porcelain", PAIR);
    assert_eq!((required.status, required.out), (1, pair.out));
    assert_eq!(asked("check --require-schedulable --porcelain", ONE).status, 0);
    let last = asked("check --nodes 3 --porcelain --nodes 10", PAIR);
    assert_eq!(last.out, "answer 12 10 11\n");
    // A job that is late as soon as it is doomed leaves nothing to be forced.
    let table = "L 1 1 1 1 0\nL 1 1 1 1 0";
    assert_eq!(
        asked("check --porcelain --policy fixed", table).out,
        "answer unschedulable 4 5\ntrace 1 2 9\nforced\nlate 2\n"
    );
}

#[test]
fn runs() {
    let out = asked("run - --events 1,1,0,255,9,10,10 --porcelain", PAIR).out;
    assert_eq!(
        out,
        "event - answer 0 state LOW i0 i0\n\
         event 1 answer 0 state LOW r3/2 i0\n\
         event 1 answer 6 state LOW r3/2 i0\n\
         event 0 answer 4 state LOW r3/2 i0\n\
         event 255 answer 4 state LOW r3/2 i0\n\
         event 9 answer 0 state LOW r2/1 i0\n\
         event 10 answer 0 state LOW i1 i0\n\
         event 10 answer 8 state LOW i1 i0\n"
    );
    let out = asked("run --events 1,9,9,2,9 --porcelain", PAIR).out;
    assert!(out.ends_with("event 2 answer 5 state HIGH r1/1 d\nevent 9 answer 0 state HIGH i0 d\n"));
    assert_eq!(asked("run --porcelain --events ", "").out, "event - answer 0 state LOW\n");
}

#[test]
fn command_lines() {
    for wrong in [
        "check --porcelain --nodes 1000001",
        "check --porcelain --nodes -1",
        "check --porcelain --nodes",
        "check --porcelain --events 1",
        "check --porcelain --ranks 1,2",
        "check --porcelain --policy fixed --ranks 1",
        "check --porcelain --shorten 1,2,3",
        "check --porcelain --",
        "run --porcelain",
        "run --porcelain --events 1 --nodes 5",
        "race --porcelain",
    ] {
        assert!(refused(wrong, PAIR), "{wrong}");
    }
    assert!(refused("check --porcelain", "H 3 3 2 3"));
    let nine = [ONE; 9].join("\n");
    assert!(refused("check --porcelain", &nine));
    let fixed = asked("check --policy fixed --porcelain", PAIR);
    assert_eq!(asked("check --ranks 3,3 --porcelain --policy fixed", PAIR), fixed);
}
