//! `--json`: the objects that commands print, beside the outside model.

use model::geometry::{Bank, Geometry, Kind};
use model::plan::{plan, WEEK};
use model::random::Random;
use model::reach::{reach, Reach};

use crate::help::{help_of, section};
use crate::json::{read, Json};
use crate::outside::Sign;
use crate::plan::{day_and_time, window};
use crate::rows::Supply;
use crate::run::{bytes, run};
use crate::scripts::{named, random_words};

/// The object that a line of arguments prints.
pub fn printed(line: &str) -> Json {
    let arguments: Vec<&str> = line.split(' ').collect();
    let text = run(&arguments).printed();
    read(&text).unwrap_or_else(|| panic!("{line}: {text}"))
}

pub fn object<const N: usize>(pairs: [(&str, Json); N]) -> Json {
    Json::Object(pairs.map(|(key, value)| (key.into(), value)).into())
}

/// The keys that the help of a command names, sorted.
pub fn documented(command: &str) -> Vec<String> {
    let help = help_of(command);
    let mut keys: Vec<String> = section(&help, "Keys of --json:")
        .into_iter()
        .map(String::from)
        .collect();
    keys.sort();
    keys
}

pub fn sorted(mut keys: Vec<String>) -> Vec<String> {
    keys.sort();
    keys
}

#[test]
fn plans() {
    let mut random = Random::new(61);
    for _ in 0..40 {
        let (now, duration) = (random.below(WEEK), random.between(1, 480));
        let (start, length) = (random.below(WEEK), random.between(480, 900));
        let wait = plan(now, duration, &[window(start, length)]).expect("a wait");
        let minute = (now + wait) % WEEK;
        let (day, time) = day_and_time(minute);
        let expected = object([
            ("wait_minutes", wait.into()),
            ("start_minute", minute.into()),
            ("start", format!("{day} {time}").as_str().into()),
        ]);
        let line = format!("plan {now} {duration} {start}:{length} --json");
        assert_eq!(printed(&line), expected);
        assert_eq!(sorted(expected.paths()), documented("plan"));
    }
}

/// A word of two images that differ in it.
fn word(geometry: &Geometry, images: [&[u32]; 2], index: u32) -> Json {
    let (page, word) = (index / geometry.page_words(), index % geometry.page_words());
    let boot_pages = geometry.window_pages(Kind::Boot);
    let (kind, page) = match page.checked_sub(boot_pages) {
        None => ("boot", page),
        Some(page) => ("program", page),
    };
    let values = images.map(|image| image[index as usize].into());
    object([
        ("index", index.into()),
        ("kind", kind.into()),
        ("page", page.into()),
        ("word", word.into()),
        ("values", Json::Array(values.into())),
    ])
}

/// What is printed of two images that differ in the words at some indices, ascending.
fn reached(numbers: [u32; 3], images: [&[u32]; 2], indices: &[u32]) -> Json {
    let geometry = Geometry::new(numbers).expect("a sign");
    let [image, other] = images;
    let (actions, place) = match reach(numbers, image, other).expect("two images") {
        Reach::Action { place } => (Some(1), Some(place)),
        Reach::NoAction => (Some(0), None),
        Reach::Words { count: 0, .. } => (Some(0), None),
        Reach::Words { .. } => (None, None),
    };
    let ends = [indices.first(), indices.last()];
    let [first, last] = ends.map(|index| index.map(|index| word(&geometry, images, *index)));
    let registers = ["NVMDATA0", "NVMDATA1", "NVMDATA2", "NVMDATA3"];
    let register = place.map(|_| registers[indices[0] as usize % 4]);
    object([
        ("differing_words", (indices.len() as u32).into()),
        ("first", first.into()),
        ("last", last.into()),
        ("differing_actions", actions.into()),
        ("place", place.into()),
        ("register", register.into()),
    ])
}

/// No word, one in a boot page, a program page and the sequence quad, and several.
#[test]
fn reaches() {
    let mut random = Random::new(62);
    let mut documented_last = documented("reach");
    documented_last
        .extend(["index", "kind", "page", "word", "values"].map(|key| format!("last.{key}")));
    for numbers in [[1, 1, 1], [2, 2, 6], [1, 5, 128]] {
        let geometry = Geometry::new(numbers).expect("a sign");
        let (words, sequence) = (geometry.bank_words(), geometry.sequence_index() as u32);
        let image = random_words(&mut random, words as usize);
        let any = random.below(words);
        for indices in [
            &[][..],
            &[0],
            &[3],
            &[words - 1],
            &[any],
            &[sequence],
            &[sequence + 3],
            &[sequence, sequence + 1],
            &[0, sequence, words - 1],
        ] {
            let mut other = image.clone();
            for index in indices {
                other[*index as usize] ^= 0x8000_0001;
            }
            let [one, two] = [("one", &image), ("two", &other)]
                .map(|(name, words)| named(&format!("objects-{name}"), &bytes(words)));
            let [q, b, p] = numbers;
            let object = printed(&format!("reach --json {q} {b} {p} {one} {two}"));
            assert_eq!(object, reached(numbers, [&image, &other], indices));
            if !indices.is_empty() {
                assert_eq!(sorted(object.paths()), sorted(documented_last.clone()));
            }
        }
    }
}

/// What is printed of a row, to its end or cut after some calls.
fn served(numbers: [u32; 3], [signs, k]: [u32; 2], cut: Option<u32>) -> Json {
    let mut supply = Supply::new(Sign::fresh(numbers, None), signs);
    let calls = cut.unwrap_or(signs * supply.total);
    supply.run(k, calls);
    let wait = supply.longest();
    let sign = |number: usize| {
        let (bank, runs) = match supply.restart(number) {
            Bank::One => (1, "old"),
            Bank::Two => (2, "new"),
        };
        object([
            ("sign", (number as u32).into()),
            ("place", supply.row.signs[number].place.into()),
            ("bank", bank.into()),
            ("runs", runs.into()),
        ])
    };
    object([
        ("supply_bears", k.into()),
        ("actions", supply.total.into()),
        ("calls", calls.into()),
        ("end", cut.map_or("idle", |_| "cut").into()),
        ("most_together", (supply.most_together() as u32).into()),
        (
            "longest_wait_calls",
            wait.map_or(0, |(calls, _)| calls).into(),
        ),
        (
            "longest_wait_sign",
            wait.map(|(_, sign)| sign as u32).into(),
        ),
        (
            "signs",
            Json::Array((0..signs as usize).map(sign).collect()),
        ),
    ])
}

#[test]
fn rows() {
    for (signs, k, cut) in [
        (1, 1, None),
        (3, 1, None),
        (5, 2, None),
        (32, 12, None),
        (3, 1, Some(0)),
        (3, 1, Some(1)),
        (3, 1, Some(750)),
        (4, 3, Some(1005)),
    ] {
        let numbers = [1, 1, 1];
        let mut line = format!("row {signs} {k} 1 1 1 --json");
        if let Some(cut) = cut {
            line += &format!(" --cut {cut}");
        }
        let object = printed(&line);
        assert_eq!(object, served(numbers, [signs, k], cut), "{line}");
        assert_eq!(sorted(object.paths()), documented("row"));
    }
}

/// What is declined prints no object.
#[test]
fn no_object_of_what_is_declined() {
    let reason = "plan: declined by 16: no wait fits: the duration is 2, the longest window 1";
    assert_eq!(run(&["plan", "0", "2", "0:1", "--json"]).reason(1), reason);
}

/// Commands without the option have no keys, and those with it have some.
#[test]
fn commands_with_objects() {
    for command in crate::help::COMMANDS {
        let has_option = crate::help::options(command).contains(&String::from("--json"));
        assert_eq!(has_option, !documented(command).is_empty(), "{command}");
    }
}
