//! The stored scripts, and lines that are no case.

use model::cases::answer_line;
use model::script::play;
use std::path::Path;

#[test]
fn stored_scripts() {
    let folder = Path::new(env!("CARGO_MANIFEST_DIR")).join("vectors/scripts");
    let mut count = 0;
    for entry in std::fs::read_dir(folder).unwrap() {
        let path = entry.unwrap().path();
        if path.extension().unwrap() != "bin" {
            continue;
        }
        let expected = std::fs::read_to_string(path.with_extension("out")).unwrap();
        assert_eq!(
            play(&std::fs::read(&path).unwrap()),
            expected,
            "{}",
            path.display()
        );
        count += 1;
    }
    assert_eq!(count, 60);
}

#[test]
fn lines_that_are_no_case() {
    let page = "page 1 1 1 64 0 1 3 7 1";
    assert_eq!(answer_line(page), "0 32 32");
    for line in [
        "",
        "unknown 1 2",
        "compare 1",
        "compare 1 2 3",
        "compare 1 -2",
        "compare 1 +2",
        "compare 1 4294967296",
        "compare 1  2",
        "compare one two",
        "page 1 1 1 64 0 1 64 7 1",
        "page 1 1 1 64 0 2 3 7 1",
        "page 1 1 1 4294967295 0 0 1",
        "register_read 1 1 1 0 0 0 0",
    ] {
        assert_eq!(answer_line(line), "?", "{line}");
    }
}

#[test]
fn lines_that_are_no_case_of_a_request() {
    let device = "0 0 0 0 0 0 0 0 2147483648 40927 2031616 0 0 0 0 0 0 0 0";
    let sheet = format!("page_sheet 1 1 1 {device} 64 0 0 64 0 0");
    assert_eq!(answer_line("plan 5 1 1 0 1"), "0 10075");
    assert_eq!(answer_line("plan 5 1 0"), "15");
    assert_eq!(answer_line("lanes_out 4 7 0 4 0 1 3 7"), "0 3 0 7 1 7 2 7");
    assert_eq!(answer_line(&format!("{sheet} 67 255 0")), "18");
    let script = format!("write_script 1 1 1 {device} 64 0 1 28 4294836225 64 4294967295 0 64 0 0");
    assert_eq!(answer_line(&format!("{script} 2015 0 0")), "17");
    for line in [
        "plan",
        "plan 5 1",
        "plan 5 1 1",
        "plan 5 1 1 0",
        "plan 5 1 1 0 1 2",
        "plan 5 1 2 0 1 2",
        "plan 5 1 4294967295 0 1",
        "lanes_out 4 7 0",
        "lanes_out 4 7 0 4 0 1 4 7",
        "lanes_out 4 256 0 4 0 0",
        "lanes_back 4 7 0 4 0 1 3 256",
        "lanes_back 4 7 0 4 0 0 0",
        "lanes 4 7 0 4 0 0",
        "valid_by_sum",
        "valid_by_sum 65535 0",
        &sheet,
        &script,
        &format!("{script} 2016 256 0"),
        &format!("{script} 2016 0 1 0 256"),
        &format!("{script} 2016 0 0 0"),
        &format!("{sheet} 67 256 0"),
        &format!("{sheet} 67 0 1 0 256"),
    ] {
        assert_eq!(answer_line(line), "?", "{line}");
    }
}

/// The number stands between the script and the result.
#[test]
fn lines_that_are_no_case_of_a_smallest_script() {
    let device = "0 0 0 0 0 0 0 0 2147483648 40927 2031616 0 0 0 0 0 0 0 0";
    let banks = "64 7 0 64 7 0";
    let smallest = |rest| {
        answer_line(&format!(
            "smallest 1 1 1 {device} {banks} 0 0 0 {banks} {rest}"
        ))
    };
    assert_eq!(smallest("8 0 1 0 1 6 8 0 0"), "0 1 1 0 1 0");
    for rest in [
        "",
        "8 0 1 0 1",
        "8 0 1 0 1 6",
        "8 0 1 0 1 8 0 0",
        "8 0 1 0 1 8 0 0 6",
        "8 0 1 0 1 6 8 0 0 0",
        "8 256 0 6 8 0 0",
        "8 0 0 6 8 0 1 0 256",
    ] {
        assert_eq!(smallest(rest), "?", "{rest}");
    }
}

/// K, the last served, the queue and the records stand before the store, the image and the SRAM; the numbers K of a list of calls after them.
#[test]
fn lines_that_are_no_case_of_a_row() {
    let device = "0 0 0 0 0 0 0 0 2147483648 40927 2031616 0 0 0 0 0 0 0 0";
    let lists = "128 7 0 64 7 0 0 0 0";
    let sign = format!("{device} 0 64 0");
    let row = |front: &str, rest: &str| answer_line(&format!("{front} {sign} {lists}{rest}"));
    let served = format!("0 0 0 0 0 0 {device} 1 0");
    assert_eq!(row("schedule 1 1 1 1 0 0 1", ""), served);
    assert_eq!(row("schedule 1 1 1 1 0 1 0 1", ""), served);
    let left = format!("0 0 {device} 0 0");
    assert_eq!(row("rowrun 1 1 1 0 0 1", " 0"), left);
    let left = format!("0 0 0 19 0 0 0 0 {device} 1 0");
    assert_eq!(row("rowrun 1 1 1 0 0 1", " 2 1 0"), left);
    for (front, rest) in [
        ("schedule 1 1 1 1 0 0 1", " 0"),
        ("schedule 1 1 1 1 0 1 1", ""),
        ("schedule 1 1 1 1 0 0 2", ""),
        ("schedule 1 1 1 1 0 0 0", ""),
        ("schedule 1 1 1 0 0 1", ""),
        ("schedule 1 1 1 1 0 4294967295 1", ""),
        ("schedule 1 1 1 1 0 0 4294967295", ""),
        ("rowrun 1 1 1 0 0 1", ""),
        ("rowrun 1 1 1 0 0 1", " 1"),
        ("rowrun 1 1 1 0 0 1", " 1 1 1"),
        ("rowrun 1 1 1 0 0 1", " 4294967295 1"),
        ("rowrun 1 1 1 1 0 0 1", " 1 1"),
    ] {
        assert_eq!(row(front, rest), "?", "{front}{rest}");
    }
}

#[test]
fn text_after_a_bar_is_ignored() {
    assert_eq!(answer_line("compare 65535 0 | 2"), "1");
    assert_eq!(answer_line("compare 65535 0"), "1");
}
