//! `yohrundel update` and `yohrundel cut`: every byte that they print, beside the outside model.

use model::geometry::Bank;
use model::random::Random;
use model::update::total;

use crate::operations::operation;
use crate::outside::{Sign, LEGEND};
use crate::run::{bytes, file, finish, run, spawn};

pub const MASKS: [[u32; 4]; 6] = [
    [0; 4],
    [!0; 4],
    [0x5555_5555; 4],
    [0x0000_FFFF, 0, 0, 0],
    [!0, 0, 0, 0],
    [0x1234_5678, 0x9ABC_DEF0, 0x0F1E_2D3C, 0x4B5A_6978],
];

pub const KINDS: [&str; 3] = ["power-on", "brown-out", "other"];

pub fn geometry_text([q, b, p]: [u32; 3]) -> String {
    format!("{q} {b} {p}")
}

/// The whole update from an accepted start on.
fn whole(sign: &mut Sign) -> String {
    let total = sign.start().expect("it is accepted");
    sign.turns(0, total);
    let runs = sign.restart(0, [0; 4]).number();
    let (why, picture, ending) = (sign.why, sign.picture(), ending(sign));
    format!(
        "It has {total} actions and is done after {total} turns.\n\
         After a power-on reset and start-up bank {runs} runs:\n{why}.\n\n{picture}\n{ending}"
    )
}

pub fn ending(sign: &Sign) -> String {
    assert_eq!(sign.banks, sign.updated());
    let (old, new) = (sign.runs_before, sign.runs_before.other());
    let word = sign.new[sign.geometry.sequence_index()];
    format!(
        "Bank {} kept every word.\nBank {} is the image with the new sequence quad\n\
         {word:08X} FFFFFFFF FFFFFFFF FFFFFFFF.\n",
        old.number(),
        new.number()
    )
}

/// What an update of a sign prints; the sign is left after it.
pub fn update(sign: &mut Sign) -> String {
    let (runs, why, before) = (sign.runs_before.number(), sign.why, sign.picture());
    let whole = whole(sign);
    format!(
        "Before the update bank {runs} runs:\n{why}.\n\n{before}\n\
         The update is accepted. {whole}\n{LEGEND}"
    )
}

/// The quads that a reset changed: the index of the bank and the quad's number in it.
fn changed_quads(before: &Sign, after: &Sign) -> Vec<(usize, usize)> {
    let quads = 0..before.image.len() / 4;
    let all = quads.flat_map(|quad| [(0, quad), (1, quad)]);
    all.filter(|place| quad(before, *place) != quad(after, *place))
        .collect()
}

fn quad(sign: &Sign, (bank, quad): (usize, usize)) -> String {
    let words = sign.banks[bank][4 * quad..4 * quad + 4].iter();
    let words: Vec<String> = words.map(|word| format!("{word:08X}")).collect();
    words.join(" ")
}

/// What a reset does to the banks of a sign.
fn change(before: &Sign, after: &Sign) -> String {
    let place @ (bank, number) = match changed_quads(before, after)[..] {
        [] => return String::from("changes no word"),
        [place] => place,
        _ => panic!("it changes more than a quad"),
    };
    let page_quads = before.geometry.page_quads() as usize;
    let (page, boot) = (number / page_quads, before.geometry.boot_pages as usize);
    let page = if page < boot {
        format!("boot page {page}")
    } else {
        format!("program page {}", page - boot)
    };
    let (old, new) = (quad(before, place), quad(after, place));
    let (number, bank) = (number % page_quads, bank + 1);
    format!("tears quad {number} of {page} of bank {bank}:\n{old} becomes\n{new}")
}

/// What a cut of a sign prints, and the bank that runs then. Where it is cut is said by the front of a sentence.
pub fn cut(mut sign: Sign, front: &str, kind: u32, mask: [u32; 4]) -> (String, Bank) {
    let total = total(&sign.geometry);
    let (failing, runs) = failing(&mut sign, front, kind, mask, &[]);
    let end = if runs == sign.runs_before {
        again(&mut sign)
    } else {
        format!("The update is complete.\n{}", ending(&sign))
    };
    let text = format!("The update has {total} actions.\n{failing}{end}\n{LEGEND}");
    (text, runs)
}

/// The same update is accepted again, and not cut.
pub fn again(sign: &mut Sign) -> String {
    format!("The same update is accepted again. {}", whole(sign))
}

/// The supply fails, and again after some stores of each start-up; the bank that runs after the completed one.
pub fn failing(
    sign: &mut Sign,
    front: &str,
    kind: u32,
    mask: [u32; 4],
    start_ups: &[u32],
) -> (String, Bank) {
    let operation = operation(sign);
    let at_cut = sign.picture();
    let mut resets = reset(sign, kind, mask);
    for stores in start_ups {
        resets += &cut_start_up(sign, *stores);
        resets += &reset(sign, kind, mask);
    }
    let runs = sign.start_up();
    let (number, why, after) = (runs.number(), sign.why, sign.picture());
    let text = format!(
        "{front} the supply fails while {operation}.\n\n{at_cut}\n{resets}\
         After the reset and start-up bank {number} runs:\n{why}.\n\n{after}\n"
    );
    (text, runs)
}

fn reset(sign: &mut Sign, kind: u32, mask: [u32; 4]) -> String {
    let before = sign.clone();
    sign.reset(kind, mask);
    let (change, name) = (change(&before, sign), KINDS[kind as usize]);
    format!("The reset ({name}) {change}.\n")
}

fn cut_start_up(sign: &mut Sign, stores: u32) -> String {
    let when = match sign.cut_start_up(stores) {
        (0, _) => String::from("Before the start-up's first store"),
        (1, 1) | (5, 5) => String::from("After the start-up's last store"),
        (done, _) => format!("After {done} of the start-up's 5 stores"),
    };
    format!("{when} the supply fails again.\n")
}

pub fn mask_text(mask: [u32; 4]) -> String {
    match mask {
        [word, ..] if mask == [word; 4] => format!("0x{word:X}"),
        _ => mask.map(|word| format!("{word:x}")).join(","),
    }
}

/// Runs cuts at places in ascending order; gives how often each bank ran after them.
fn cuts(numbers: [u32; 3], cases: impl Iterator<Item = (u32, u32, [u32; 4])>) -> [u32; 2] {
    let (mut sign, mut at, mut counts) = (Sign::fresh(numbers, None), 0, [0; 2]);
    for (place, kind, mask) in cases {
        sign.turns(at, place);
        at = place;
        let front = format!("At place {place}");
        let (expected, runs) = cut(sign.clone(), &front, kind, mask);
        let name = KINDS[kind as usize];
        let kind = if place % 2 == 0 {
            name.into()
        } else {
            kind.to_string()
        };
        let (geometry, mask) = (geometry_text(numbers), mask_text(mask));
        let arguments = format!("cut {geometry} {place} {kind} {mask}");
        let arguments: Vec<&str> = arguments.split(' ').collect();
        assert_eq!(run(&arguments).printed(), expected, "{arguments:?}");
        counts[runs.number() as usize - 1] += 1;
    }
    counts
}

fn all_cuts_at(place: u32) -> impl Iterator<Item = (u32, u32, [u32; 4])> {
    let with_kind = move |kind| MASKS.into_iter().map(move |mask| (place, kind, mask));
    (0..3).flat_map(with_kind)
}

#[test]
fn updates_with_a_made_up_image() {
    for numbers in [
        [1, 1, 1],
        [1, 2, 6],
        [2, 3, 2],
        [4, 1, 9],
        [1, 5, 64],
        [1, 2, 65],
        [1, 5, 128],
        [128, 5, 128],
    ] {
        let arguments = format!("update {}", geometry_text(numbers));
        let arguments: Vec<&str> = arguments.split(' ').collect();
        let expected = update(&mut Sign::fresh(numbers, None));
        assert_eq!(run(&arguments).printed(), expected);
    }
}

/// An image with a blank page, with the running bank's words in another, and with random words.
#[test]
fn update_with_an_image() {
    let mut random = Random::new(1);
    let mut image: Vec<u32> = (0..4 * 64).map(|_| random.word()).collect();
    image[64..128].fill(!0);
    image[128..192].copy_from_slice(&Sign::fresh([2, 1, 3], None).old()[128..192]);
    let expected = update(&mut Sign::fresh([2, 1, 3], Some(image.clone())));
    assert!(expected.contains("bank 2* n     nnn\n"), "{expected}");
    let path = file("image", &bytes(&image));
    let path = path.to_str().expect("a name in UTF-8");
    assert_eq!(run(&["update", "2", "1", "3", path]).printed(), expected);
    let child = spawn(&["update", "2", "1", "3", "-"]);
    assert_eq!(finish(child, &bytes(&image)).printed(), expected);
}

/// Every place of the smallest sign, the kinds and masks in turn.
#[test]
fn cuts_at_every_place() {
    let case = |place| (place, place % 3, MASKS[place as usize / 3 % 6]);
    let [old, new] = cuts([1, 1, 1], (0..=252).map(case));
    // The new bank runs after the step of the sequence quad.
    assert_eq!([old, new], [251, 2]);
}

/// Inside the step of the sequence quad, and at both ends.
#[test]
fn cuts_of_every_kind_and_mask() {
    let cases = [0, 970, 971, 972].into_iter().flat_map(all_cuts_at);
    let [old, new] = cuts([1, 2, 6], cases);
    // At place 970 only the masks with a whole first word let the new sequence word through.
    assert_eq!([old, new], [18 + 3 * 4, 3 * 2 + 2 * 18]);
}

#[test]
fn cuts_of_larger_signs() {
    let mut random = Random::new(2);
    for numbers in [[2, 2, 3], [8, 1, 2], [1, 5, 20]] {
        let total = Sign::fresh(numbers, None).start().expect("it is accepted");
        let mut places: Vec<u32> = (0..20).map(|_| random.below(total + 1)).collect();
        places.sort();
        let random = &mut random;
        let case = |place| (place, random.below(3), random.mask());
        let [old, _] = cuts(numbers, places.into_iter().map(case));
        assert!(old > 0);
    }
}

#[test]
fn mask_is_0_where_none_is_given() {
    let without = run(&["cut", "1", "1", "1", "250", "other"]);
    let with = run(&["cut", "1", "1", "1", "250", "2", "0,0,0,0"]);
    assert_eq!(without.printed(), with.printed());
}
