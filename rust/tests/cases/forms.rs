//! What is a line, what is a case, and what the program does beside them.

use std::process::Command;

use model::cases::answer_line;

use crate::run::{check, printed, PROGRAM};

#[test]
fn lines() {
    assert_eq!(printed(b""), "");
    assert_eq!(printed(b"\n"), "?\n");
    assert_eq!(printed(b"compare 65535 0"), "1\n");
    assert_eq!(printed(b"compare 65535 0\n\nx\n"), "1\n?\n?\n");
    assert_eq!(printed(b"compare 65535 0|2\r\n"), "1\n");
    assert_eq!(printed(b"compare 65535 0\r\n"), "?\n");
    assert_eq!(printed(b"\xFF\nplan 0 1 1 0 \xFF\n"), "?\n?\n");
}

/// A line that goes on after its inputs is no case, be the call accepted or declined.
#[test]
fn lines_that_go_on() {
    let device = "0 0 0 0 0 0 0 0 2147483648 40927 2031616 0 0 0 0 0 0 0 0";
    let startup = format!("startup 1 1 1 {device}");
    let declined = format!("startup 3 1 1 {device}");
    for (line, expected) in [
        (
            &startup,
            "0 0 0 0 0 0 0 0 0 2147483648 40927 2031808 0 0 0 0 0 0 0 0",
        ),
        (&declined, "1"),
    ] {
        assert_eq!(printed(line.as_bytes()), format!("{expected}\n"));
        assert_eq!(printed(format!("{line} 0").as_bytes()), "?\n");
        assert_eq!(printed(format!("{line}  ").as_bytes()), "?\n");
        assert_eq!(
            printed(format!("{line} ").as_bytes()),
            format!("{expected}\n")
        );
    }
}

/// Lists that are longer than any that a call takes.
#[test]
fn long_lists() {
    let device = "0 0 0 0 0 0 0 0 2147483648 40927 2031616 0 0 0 0 0 0 0 0";
    let sheet = format!("page_sheet 1 1 1 {device} 64 0 0 64 0 1 63 1");
    // The sequence word of bank 1, at the index that the sizes give, and bank 2 blank.
    let script = |sizes, words, index| {
        let banks = format!("{words} 0 1 {index} 4294836225 {words} 4294967295 0");
        format!("write_script {sizes} {device} {banks} {words} 0 0")
    };
    let lines = [
        format!("{} 15262112 0 1 15262111 9", script("1 1 1", 64, 28)),
        format!("{} 15262104 0 0", script("128 5 128", 544_768, 20_476)),
        String::from("page 128 5 128 600001 7 1 600000 8 0"),
        String::from("page 1 1 1 16777216 4294967295 0 0"),
        format!("step 1 1 1 {device} 64 0 0 1000000 1 1 999999 2 16385 3 0"),
        format!("{sheet} 15262104 32 2 5 0 15262103 255"),
        String::from("lanes_out 4000000 0 1 3 9 4000000 0 1 3999999 1"),
        String::from("lanes_back 4000000 0 2 3 9 3999999 1 4000000 1 0"),
        String::from("lanes_out 4000004 0 0 4000000 0 0"),
        format!("run 1 1 1 {device} 64 0 1 28 4294836225 64 1 0 64 2 0 2 6 7 1000000 3"),
        format!("run 1 1 1 {device} 1000000 0 1 28 4294836225 64 1 0 4000000 2 0 2 6 4"),
        String::from("reach 128 5 128 544768 0 0 544768 0 1 544767 1"),
        String::from("reach 128 5 128 544769 0 0 4000000 0 1 3999999 1"),
    ];
    check_lines(&lines);
}

/// Cases that the model answers while the test runs.
fn check_lines(lines: &[String]) {
    let answered = lines.iter().map(|line| (line.clone(), answer_line(line)));
    let answered: Vec<(String, String)> = answered.collect();
    assert!(answered.iter().all(|(_, expected)| expected != "?"));
    check(&answered);
}

/// The largest banks and longer ones, and scripts and results of more bytes than a play takes.
#[test]
fn long_lists_of_a_smallest_script() {
    let device = "0 0 0 0 0 0 0 0 2147483648 40927 2031616 0 0 0 0 0 0 0 0";
    let smallest = |sram, words, rest| {
        let banks = format!("{words} 0 0 {words} 1 0");
        format!("smallest 128 5 128 {device} {banks} {sram} 0 0 {banks} {rest}")
    };
    let step = "16 0 1 8 1 6 16 0 0";
    check_lines(&[
        smallest(16_384, 544_768, step),
        smallest(1_000_000, 544_768, step),
        smallest(0, 1_000_000, step),
        smallest(0, 544_768, "8000000 0 0 6 8000000 0 0"),
        smallest(0, 544_768, "8000001 0 0 6 8000001 7 0"),
        smallest(0, 544_768, "16 0 1 8 1 6 8000000 0 0"),
    ]);
}

/// The largest banks, a store with more around them, more signs than a row has, and a queue that is longer than any.
#[test]
fn long_lists_of_a_row() {
    let device = "0 0 0 0 0 0 0 0 2147483648 40927 2031616 0 0 0 0 0 0 0 0";
    let largest = "3000000 4294967295 2 20477 4294836225 1109992 4294836225 544768 7 0 16384 0 0";
    let signs = format!("2 {device} 0 1 544769 {device} 0 1089516 1700000");
    let many = format!(" {device} 0 0 64").repeat(1_000);
    let queue = " 5".repeat(100_000);
    check_lines(&[
        format!("schedule 128 5 128 1 1 0 {signs} {largest}"),
        format!("schedule 128 5 128 1 1 1 1 {signs} {largest}"),
        format!(
            "rowrun 128 5 128 1 0 {signs} {largest} 40 {}",
            ["1"; 40].join(" ")
        ),
        format!("rowrun 1 1 1 999 0 1000{many} 128 0 0 64 0 0 0 0 0 3 1 2 3"),
        format!("rowrun 1 1 1 0 100000{queue} 1 {device} 0 0 64 128 0 0 64 0 0 0 0 0 2 1 32"),
    ]);
}

#[test]
fn it_takes_no_arguments() {
    let ran = Command::new(PROGRAM).arg("calls.txt").output();
    let ran = ran.expect("the program is run");
    assert_eq!((ran.status.code(), ran.stdout.len()), (Some(2), 0));
    assert!(ran.stderr.starts_with(b"cases: "));
}
