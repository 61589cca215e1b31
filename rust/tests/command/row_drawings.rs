//! `yohrundel row --svg`: the banks of each sign and the timeline, beside the outside model.

use crate::drawings::{areas, check_brightness, drawn, Area, PAGES};
use crate::outside::Sign;
use crate::rows::Supply;
use crate::run::{bytes, run};
use crate::scripts::named;
use crate::xml::Element;

/// The states of a sign by their characters and their classes.
const STATES: [(char, &str); 4] = [
    ('w', "waits"),
    ('#', "works"),
    ('.', "between"),
    (' ', "done"),
];

/// A row by its sizes, its signs, what the supply bears, and after how many calls it is cut.
struct Case {
    numbers: [u32; 3],
    signs: u32,
    k: u32,
    calls: u32,
}

impl Case {
    fn line(&self) -> String {
        let ([q, b, p], signs, k) = (self.numbers, self.signs, self.k);
        format!("row {signs} {k} {q} {b} {p} --cut {}", self.calls)
    }

    /// The row in the model after its calls.
    fn supply(&self, image: Option<Vec<u32>>) -> Supply {
        let mut supply = Supply::new(Sign::fresh(self.numbers, image), self.signs);
        supply.run(self.k, self.calls);
        supply
    }
}

/// The pages of a bank from left to right by their characters, and a star where the bank runs.
fn pages(bank: &Element) -> String {
    let mut pages: Vec<(Area, char)> = Vec::new();
    for (character, class) in PAGES {
        let paths = bank.of_class(class).into_iter();
        pages.extend(paths.flat_map(areas).map(|area| (area, character)));
    }
    pages.sort_by(|(one, _), (two, _)| one.x.total_cmp(&two.x));
    let runs = bank.of_class("runs").into_iter().map(|_| '*');
    runs.chain(pages.into_iter().map(|(_, page)| page))
        .collect()
}

/// The same of both banks of a sign, by its picture.
fn pictured(sign: &Sign) -> Vec<String> {
    let picture = sign.picture();
    let banks = picture.lines().filter_map(|row| row.strip_prefix("bank "));
    let banks = banks.map(|bank| bank[1..].replace(' ', ""));
    banks.collect()
}

/// The banks of each sign at the three moments.
fn check_banks(root: &Element, case: &Case, image: Option<Vec<u32>>) {
    let supply = case.supply(image.clone());
    let drawn = root.of_class("sign");
    assert_eq!(drawn.len(), supply.row.signs.len());
    for (drawn, record) in drawn.into_iter().zip(&supply.row.signs) {
        let mut sign = Sign::fresh(case.numbers, image.clone());
        let mut expected = vec![pictured(&sign)];
        sign.turns(0, record.place);
        expected.push(pictured(&sign));
        sign.restart(0, [0; 4]);
        expected.push(pictured(&sign));
        let moments = drawn.of_class("moment").into_iter();
        let moments = moments.map(|moment| moment.children.iter().map(pages).collect());
        assert_eq!(moments.collect::<Vec<Vec<String>>>(), expected);
    }
}

#[test]
fn banks_of_each_sign() {
    for (numbers, signs, k, calls) in [
        ([1, 1, 1], 3, 1, 750),
        ([1, 1, 1], 3, 1, 0),
        ([1, 2, 6], 4, 2, 500),
        ([1, 2, 6], 4, 2, 3000),
        ([2, 5, 60], 2, 1, 20_000),
    ] {
        let case = Case {
            numbers,
            signs,
            k,
            calls,
        };
        let line = case.line();
        let (printed, root) = drawn("row-banks", &format!("{line} --svg FILE"));
        assert_eq!(printed, run(&line.split(' ').collect::<Vec<_>>()).printed());
        check_banks(&root, &case, None);
    }
}

/// A page of all ones is new once it is erased, while others are blank; to the end of the row all are new.
#[test]
fn banks_with_a_blank_page() {
    let numbers = [1, 2, 2];
    let mut image: Vec<u32> = (0..128).collect();
    image[64..96].fill(!0);
    let path = named("row-drawing-image", &bytes(&image));
    // Each update has 492 actions. It erases the boot pages by place 43, the page of all ones by 59 and the other program page by 75.
    for (calls, second) in [(50 * 2, "..oo"), (80 * 2, "..n."), (492 * 2, "nnnn")] {
        let case = Case {
            numbers,
            signs: 2,
            k: 2,
            calls,
        };
        let line = format!("{} {path} --svg FILE", case.line());
        let (_, root) = drawn("row-blank", &line);
        check_banks(&root, &case, Some(image.clone()));
        let at_end = root.of_class("moment")[1];
        assert_eq!(pages(&at_end.children[1]), second);
    }
}

/// The character of the only state whose area holds a point of a line.
fn state_at(line: &Element, x: f64, y: f64) -> char {
    let inside = |area: &Area| {
        let (right, bottom) = (area.x + area.width, area.y + area.height);
        area.x < x && x < right && area.y < y && y < bottom
    };
    let is_there = |class| {
        line.of_class(class)
            .into_iter()
            .flat_map(areas)
            .any(|area| inside(&area))
    };
    let there: Vec<char> = STATES
        .iter()
        .filter(|(_, class)| is_there(class))
        .map(|(state, _)| *state)
        .collect();
    assert_eq!(there.len(), 1, "{there:?} at {x}");
    there[0]
}

/// The area around all states of a line.
fn whole(line: &Element) -> Area {
    let paths = STATES.iter().flat_map(|(_, class)| line.of_class(class));
    let areas: Vec<Area> = paths.flat_map(areas).collect();
    let least = |of: fn(&Area) -> f64| areas.iter().map(of).fold(f64::MAX, f64::min);
    let most = |of: fn(&Area) -> f64| areas.iter().map(of).fold(0.0, f64::max);
    let (x, y) = (least(|area| area.x), least(|area| area.y));
    Area {
        x,
        y,
        width: most(|area| area.x + area.width) - x,
        height: most(|area| area.y + area.height) - y,
    }
}

/// Up to 440 calls have a column each: what each sign did after each call, and how many operations ran together.
#[test]
fn calls_one_by_one() {
    for (signs, k, calls) in [(1, 1, 252), (3, 1, 120), (3, 2, 440), (2, 32, 1)] {
        let case = Case {
            numbers: [1, 1, 1],
            signs,
            k,
            calls,
        };
        let supply = case.supply(None);
        let (_, root) = drawn("row-calls", &format!("{} --svg FILE", case.line()));
        check_brightness(&root, &["waits", "works", "between", "done"]);
        let lines = root.of_class("times");
        assert_eq!(lines.len(), signs as usize);
        for (line, states) in lines.into_iter().zip(&supply.states) {
            let area = whole(line);
            let pitch = area.width / f64::from(calls);
            let middle = |call: u32| area.x + (f64::from(call) + 0.5) * pitch;
            let y = area.y + area.height / 2.0;
            let drawn: Vec<char> = (0..calls)
                .map(|call| state_at(line, middle(call), y))
                .collect();
            assert_eq!(&drawn, states);
        }
        check_together(&root, &supply, k);
    }
}

/// The height of each column of the operations that ran together, under a line at K.
fn check_together(root: &Element, supply: &Supply, k: u32) {
    let group = root.of_class("together")[0];
    let frame = areas(group.of_class("frame")[0])[0];
    let pitch = frame.width / supply.together.len() as f64;
    let paths = group.of_class("works");
    let columns: Vec<Area> = paths.into_iter().flat_map(areas).collect();
    for (call, together) in supply.together.iter().enumerate() {
        let x = frame.x + (call as f64 + 0.5) * pitch;
        let column = columns
            .iter()
            .find(|area| area.x < x && x < area.x + area.width);
        let height = column.map_or(0.0, |area| area.height);
        let expected = frame.height * *together as f64 / f64::from(k);
        assert!((height - expected).abs() < 0.01, "call {call}");
    }
    let limit = group.of_class("limit")[0];
    assert_eq!([limit.number("y1"), limit.number("y2")], [frame.y; 2]);
}

/// More calls share columns: each state has as much of a column as of the calls in it.
#[test]
fn shares_of_columns() {
    let case = Case {
        numbers: [1, 1, 1],
        signs: 3,
        k: 1,
        calls: 750,
    };
    let supply = case.supply(None);
    let (_, root) = drawn("row-shares", &format!("{} --svg FILE", case.line()));
    for (line, states) in root.of_class("times").into_iter().zip(&supply.states) {
        let area = whole(line);
        for (character, class) in STATES {
            let share = |column: usize| {
                let calls: Vec<usize> =
                    (0..750).filter(|call| call * 440 / 750 == column).collect();
                let of = calls.iter().filter(|call| states[**call] == character);
                of.count() as f64 / calls.len() as f64
            };
            let expected: f64 = (0..440).map(share).sum::<f64>() / 440.0;
            let paths = line.of_class(class).into_iter();
            let drawn: f64 = paths
                .flat_map(areas)
                .map(|part| part.width * part.height)
                .sum();
            let drawn = drawn / (area.width * area.height);
            assert!(
                (drawn - expected).abs() < 0.0001,
                "{class}: {drawn} {expected}"
            );
        }
    }
}

/// The largest row stays inside its width, and has a description of each sign.
#[test]
fn largest_row() {
    let (_, root) = drawn("row-largest", "row 32 4 1 5 128 --cut 40000 --svg FILE");
    assert_eq!(root.of_class("sign").len(), 32);
    let description = &root.children[1].text;
    assert_eq!(description.matches("bank 1 runs, the old one").count(), 32);
    let pages = root.of_class("bank").into_iter().flat_map(|bank| {
        let paths = PAGES.iter().flat_map(|(_, class)| bank.of_class(class));
        paths.flat_map(areas).collect::<Vec<Area>>()
    });
    assert!(pages.clone().count() >= 32 * 3 * 4);
    assert!(pages.into_iter().all(|page| page.width > 2.0));
}

/// Before any call there is nothing to show over time; with --json the object is printed all the same.
#[test]
fn other_rows() {
    let (_, root) = drawn("row-none", "row 2 1 1 1 1 --cut 0 --svg FILE");
    assert!(root.of_class("times").is_empty() && root.of_class("together").is_empty());
    assert_eq!(root.of_class("sign").len(), 2);
    let (printed, root) = drawn("row-json", "row 2 1 1 1 1 --json --svg FILE");
    assert_eq!(
        printed,
        run(&["row", "2", "1", "1", "1", "1", "--json"]).printed()
    );
    let heads: Vec<&str> = root
        .of_class("strong")
        .iter()
        .map(|head| head.text.as_str())
        .collect();
    let expected = [
        "before the updates",
        "after 504 calls the row is idle",
        "after a reset and start-up",
    ];
    assert_eq!(heads, expected);
}
