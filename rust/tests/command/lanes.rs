//! `yohrundel lanes`.

use model::lanes::{lanes_back, lanes_out};
use model::random::Random;

use crate::run::{file, finish, run, spawn, Ran};

fn lanes(way: &str, bytes: &[u8]) -> Ran {
    finish(spawn(&["lanes", way, "-"]), bytes)
}

fn done(out: Vec<u8>) -> Ran {
    Ran {
        status: Some(0),
        out,
        err: String::new(),
    }
}

#[test]
fn ways_out_and_back() {
    let mut random = Random::new(4);
    for words in [0, 1, 2, 7, 64, 300_000] {
        let image: Vec<u8> = (0..4 * words).map(|_| random.word() as u8).collect();
        let (mut out, mut back) = (image.clone(), image.clone());
        lanes_out(&image, &mut out).expect("the way out");
        lanes_back(&image, &mut back).expect("the way back");
        assert_eq!(lanes("out", &image), done(out.clone()));
        assert_eq!(lanes("back", &image), done(back));
        assert_eq!(lanes("back", &out), done(image));
    }
}

#[test]
fn first_bytes_before_the_second() {
    let path = file("two-words", b"abcdABCD");
    let arguments = ["lanes".as_ref(), "out".as_ref(), path.as_os_str()];
    assert_eq!(run(&arguments).printed(), "aAbBcCdD");
}

#[test]
fn lengths_that_are_declined() {
    for length in [1, 2, 3, 5, 4095] {
        for way in ["out", "back"] {
            let reason = "22: the two lengths differ or are no multiple of 4";
            let cause = match length {
                1 => String::from("\"-\" has 1 byte"),
                _ => format!("\"-\" has {length} bytes"),
            };
            let expected = format!("lanes: declined by {reason}: {cause}");
            assert_eq!(lanes(way, &vec![0; length]).reason(1), expected);
        }
    }
}
