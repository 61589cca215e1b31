//! Two of the largest images compared, beside a plain loop.

use model::generate::random_image;
use model::geometry::Geometry as OutsideGeometry;
use model::reach::{self as outside, Reach as OutsideReach};
use yohrundel::{reach, Geometry, Reach};

use crate::rounds::{report, rounds, Side};

const LARGEST: [u32; 3] = [128, 5, 128];

/// The comparisons of a round.
const PASSES: u32 = 32;

/// The archive's comparison.
struct Archive<'a> {
    images: [&'a [u32]; 2],
    found: Option<Reach>,
}

impl Side for Archive<'_> {
    fn restart(&mut self) {}

    fn run(&mut self, _: u32) {
        let ([q, b, p], [image, other]) = (LARGEST, self.images);
        self.found = reach(Geometry { q, b, p }, image, other).ok();
    }
}

/// The loop that counts the words that differ, and finds the lowest and the highest.
struct Plain<'a> {
    images: [&'a [u32]; 2],
    found: [usize; 3],
}

impl Side for Plain<'_> {
    fn restart(&mut self) {}

    fn run(&mut self, _: u32) {
        let [image, other] = self.images;
        self.found = plain(image, other);
    }
}

fn plain(image: &[u32], other: &[u32]) -> [usize; 3] {
    let (mut count, mut lowest, mut highest) = (0, 0, 0);
    for (index, (word, other)) in image.iter().zip(other).enumerate() {
        if word != other {
            if count == 0 {
                lowest = index;
            }
            highest = index;
            count += 1;
        }
    }
    [count, lowest, highest]
}

/// What the call must give, by the model.
fn expected(images: [&[u32]; 2]) -> Reach {
    let [image, other] = images;
    match outside::reach(LARGEST, image, other).expect("two images") {
        OutsideReach::Action { place } => Reach::Action { place },
        OutsideReach::NoAction => Reach::NoAction,
        OutsideReach::Words {
            count,
            lowest,
            highest,
        } => Reach::Words {
            count,
            lowest,
            highest,
        },
    }
}

/// Times two images that differ in some words.
fn measure(name: &str, images: [&[u32]; 2], differing: [usize; 3]) {
    let mut archive = Archive {
        images,
        found: None,
    };
    let mut plain = Plain {
        images,
        found: [0; 3],
    };
    let times = rounds([&mut archive, &mut plain], PASSES);
    assert_eq!(archive.found, Some(expected(images)));
    assert_eq!(plain.found, differing);
    let units = [PASSES * images[0].len() as u32; 2];
    let name = format!("images that {name}, beside a plain loop");
    report(&name, &times, "word", units);
}

/// The archive's comparison beside the plain loop, of equal images, of some a word apart, and of some of which every word differs.
pub fn beside_a_plain_loop() {
    let geometry = OutsideGeometry::new(LARGEST).expect("a sign");
    let image = random_image(&geometry, 4);
    let last = image.len() - 1;
    println!("images of {} words compared: as the model does", last + 1);
    measure("are equal", [&image, &image.clone()], [0; 3]);
    let mut other = image.clone();
    other[last / 2] ^= 1;
    measure(
        "differ in one word",
        [&image, &other],
        [1, last / 2, last / 2],
    );
    let inverted: Vec<u32> = image.iter().map(|word| !word).collect();
    measure(
        "differ in every word",
        [&image, &inverted],
        [last + 1, 0, last],
    );
}
