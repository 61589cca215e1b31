//! The largest image in byte lanes and back, beside plain loops.

use model::generate::random_image;
use model::geometry::Geometry;
use yohrundel::{lanes_back, lanes_out};

use crate::rounds::{report, rounds, Side};

/// The passes of a round.
const PASSES: u32 = 16;

/// Where a list of bytes begins: on a cache line. Elsewhere the plain way back is slower, and its ratio lower.
const LINE: usize = 64;

/// Bytes that begin on a cache line.
struct Aligned {
    all: Vec<u8>,
    begin: usize,
    length: usize,
}

impl Aligned {
    fn new(length: usize) -> Aligned {
        let all = vec![0; length + LINE];
        let begin = all.as_ptr().align_offset(LINE);
        Aligned { all, begin, length }
    }

    fn bytes(&self) -> &[u8] {
        &self.all[self.begin..][..self.length]
    }

    fn bytes_mut(&mut self) -> &mut [u8] {
        &mut self.all[self.begin..][..self.length]
    }
}

/// One way from a source to a target.
struct Way<'a> {
    pass: fn(&[u8], &mut [u8]),
    source: &'a [u8],
    target: Aligned,
}

impl<'a> Way<'a> {
    fn new(pass: fn(&[u8], &mut [u8]), source: &'a [u8]) -> Way<'a> {
        let target = Aligned::new(source.len());
        Way {
            pass,
            source,
            target,
        }
    }
}

impl Side for Way<'_> {
    fn restart(&mut self) {}

    fn run(&mut self, _: u32) {
        (self.pass)(self.source, self.target.bytes_mut());
    }
}

/// The way out of a source and the way back.
struct Both<'a> {
    out: Way<'a>,
    back: fn(&[u8], &mut [u8]),
    target: Aligned,
}

impl<'a> Both<'a> {
    fn new(out: fn(&[u8], &mut [u8]), back: fn(&[u8], &mut [u8]), source: &'a [u8]) -> Both<'a> {
        Both {
            out: Way::new(out, source),
            back,
            target: Aligned::new(source.len()),
        }
    }
}

impl Side for Both<'_> {
    fn restart(&mut self) {}

    fn run(&mut self, slice: u32) {
        self.out.run(slice);
        (self.back)(self.out.target.bytes(), self.target.bytes_mut());
    }
}

fn plain_out(source: &[u8], target: &mut [u8]) {
    let words = source.len() / 4;
    for word in 0..words {
        target[word] = source[4 * word];
        target[words + word] = source[4 * word + 1];
        target[2 * words + word] = source[4 * word + 2];
        target[3 * words + word] = source[4 * word + 3];
    }
}

fn plain_back(source: &[u8], target: &mut [u8]) {
    let words = source.len() / 4;
    for word in 0..words {
        target[4 * word] = source[word];
        target[4 * word + 1] = source[words + word];
        target[4 * word + 2] = source[2 * words + word];
        target[4 * word + 3] = source[3 * words + word];
    }
}

fn archive_out(source: &[u8], target: &mut [u8]) {
    lanes_out(source, target).expect("the way out");
}

fn archive_back(source: &[u8], target: &mut [u8]) {
    lanes_back(source, target).expect("the way back");
}

/// Both ways of the archive beside the plain loops.
pub fn beside_plain_loops() {
    let geometry = Geometry::new([128, 5, 128]).expect("a sign");
    let words = random_image(&geometry, 3);
    let mut image = Aligned::new(4 * words.len());
    for (bytes, word) in image.bytes_mut().chunks_exact_mut(4).zip(words) {
        bytes.copy_from_slice(&word.to_le_bytes());
    }
    let image = image.bytes();
    let mut out = Way::new(archive_out, image);
    let mut plain = Way::new(plain_out, image);
    let out_times = rounds([&mut out, &mut plain], PASSES);
    let lanes = out.target.bytes();
    assert!(lanes == plain.target.bytes(), "the lanes");
    let mut back = Way::new(archive_back, lanes);
    let mut plain = Way::new(plain_back, lanes);
    let back_times = rounds([&mut back, &mut plain], PASSES);
    assert!(back.target.bytes() == image, "the image");
    assert!(plain.target.bytes() == image, "the image of the plain loop");
    let mut both = Both::new(archive_out, archive_back, image);
    let mut plain = Both::new(plain_out, plain_back, image);
    let both_times = rounds([&mut both, &mut plain], PASSES);
    let bytes = image.len() as u32;
    println!(
        "image of {bytes} bytes: its lanes are those of a plain loop, and back it is the same"
    );
    report(
        "byte lanes, out, beside a plain loop",
        &out_times,
        "byte",
        [PASSES * bytes; 2],
    );
    report(
        "byte lanes, back, beside a plain loop",
        &back_times,
        "byte",
        [PASSES * bytes; 2],
    );
    report(
        "byte lanes, out and back, beside plain loops",
        &both_times,
        "byte",
        [PASSES * bytes; 2],
    );
}
