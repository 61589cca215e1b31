//! The play of a written script beside the turns of the update, which are compared with the model.

use model::generate::accepted_start;
use model::geometry::{Banks, Geometry as OutsideGeometry};
use model::random::Random;
use model::write_script as outside;
use yohrundel::*;

use crate::settings::{cases, seed, Report, Within};
use crate::sign::Sign;
use crate::updates::LARGEST;

/// Signs whose updates have few actions.
const SIGNS: [[u32; 3]; 5] = [[1, 1, 1], [1, 2, 1], [1, 1, 2], [2, 1, 1], [1, 3, 2]];

fn random_sign(numbers: [u32; 3], random: &mut Random) -> Sign {
    let geometry = OutsideGeometry::new(numbers).expect("a sign");
    Sign::new(numbers, accepted_start(random, &geometry))
}

/// The script of a sign's update, by the archive and by the model.
pub fn written(sign: &Sign) -> Vec<u8> {
    let mut script = vec![0xA5; sign.geometry.script_bytes().expect("a sign")];
    let [one, two] = &sign.banks;
    let records = write_script(
        sign.geometry,
        sign.device,
        one,
        two,
        &sign.image,
        &mut script,
    );
    assert_eq!(
        records.map(|records| 8 * records as usize),
        Ok(script.len())
    );
    assert!(script == outside_script(sign), "the model writes another");
    script
}

fn outside_script(sign: &Sign) -> Vec<u8> {
    let [mut one, mut two] = sign.banks.clone();
    let banks = Banks {
        one: &mut one,
        two: &mut two,
    };
    let mut script = vec![0x5A; sign.geometry.script_bytes().expect("a sign")];
    let (numbers, device) = (sign.numbers, &sign.outside_device);
    outside::write_script(numbers, device, &banks, &sign.image, &mut script)
        .expect("the model accepts the update");
    script
}

/// What a script is played on.
struct Bench {
    geometry: Geometry,
    device: Device,
    banks: [Vec<u32>; 2],
}

impl Bench {
    fn new(sign: &Sign) -> Bench {
        Bench {
            geometry: sign.geometry,
            device: sign.device,
            banks: sign.banks.clone(),
        }
    }

    /// Plays a part of a script; gives how many records it has, all of which answer 0, and how many events there were.
    fn play(&mut self, sram: &[u32], script: &[u8]) -> (usize, usize) {
        let (sign, device) = (self.geometry, self.device);
        let [one, two] = &mut self.banks;
        let length = play_length(sign, device, one, two, sram, script).expect("a script");
        let mut output = vec![0; length];
        let played = play(sign, device, one, two, sram, script, &mut output);
        self.device = played.expect("a script").device;
        let (mut records, mut events) = (0, 0);
        for line in output.split_inclusive(|byte| *byte == b'\n') {
            assert!(line.starts_with(format!("{records} 0 ").as_bytes()));
            records += 1;
            events += usize::from(line.ends_with(b" 1\n"));
        }
        (records, events)
    }

    fn compare(&self, sign: &Sign, place: u32) {
        assert_eq!(self.device, sign.device, "after {place} records");
        assert!(self.banks == sign.banks, "after {place} records: the banks");
    }
}

/// After each number of records, played from the start and played one by one, stands what as many turns leave.
fn check_every_place(mut sign: Sign, random: &mut Random) -> u32 {
    let (script, total) = (written(&sign), sign.start());
    let start = Bench::new(&sign);
    let mut one_by_one = Bench::new(&sign);
    for place in 0..total {
        let sram: Vec<u32> = (0..random.below(9)).map(|_| random.word()).collect();
        sign.turn(&sram, place);
        let (front, rest) = script.split_at(8 * (place as usize + 1));
        assert_eq!(rest.is_empty(), place + 1 == total);
        let mut bench = Bench {
            banks: start.banks.clone(),
            ..start
        };
        assert_eq!(bench.play(&sram, front).0, place as usize + 1);
        bench.compare(&sign, place + 1);
        one_by_one.play(&sram, &front[front.len() - 8..]);
        one_by_one.compare(&sign, place + 1);
    }
    total
}

#[test]
fn plays_of_written_scripts() {
    let (seed, count) = (seed(20), cases(10_000));
    let report = Report::new(format!("plays of written scripts, seed {seed}"));
    let mut plays = 0;
    for number in 0..count {
        let own_seed = seed.wrapping_mul(1_000_000) + number as u64;
        let numbers = SIGNS[number % SIGNS.len()];
        let _within = Within(format!(
            "in the script of a sign {numbers:?}, seed {own_seed}"
        ));
        let mut random = Random::new(own_seed);
        let sign = random_sign(numbers, &mut random);
        plays += check_every_place(sign, &mut random);
    }
    report.finish(format_args!("{count} scripts, {plays} fronts of them"));
}

/// "the largest total becomes 1,907,764".
#[test]
fn script_of_the_largest_sign() {
    let seed = seed(21);
    let report = Report::new(format!("the largest script, seed {seed}"));
    let mut random = Random::new(seed);
    let mut sign = random_sign(LARGEST, &mut random);
    let script = written(&sign);
    assert_eq!(script.len(), 15_262_112);
    let mut bench = Bench::new(&sign);
    let (records, events) = bench.play(&[], &script);
    assert_eq!(records as u32, sign.start());
    let mut place = 0;
    while let Some(next) = sign.turn(&[], place) {
        place = next;
    }
    bench.compare(&sign, place);
    // An erase of each of 133 pages, and a program of each of their 1,024 quads.
    assert_eq!((place, events), (1_907_764, 133 * 1_025));
    let runs = sign.restart(&[], 0, [0; 4]);
    assert!(sign.runs_new(runs), "the old bank runs");
    report.finish(format_args!("{records} records"));
}

/// A byte fewer than the largest script has, which no call writes then.
#[test]
fn buffer_a_byte_shorter_than_the_largest_script() {
    let sign = random_sign(LARGEST, &mut Random::new(seed(22)));
    let mut buffer = vec![0xA5; 15_262_111];
    let [one, two] = &sign.banks;
    let (geometry, image) = (sign.geometry, &sign.image);
    let declined = write_script(geometry, sign.device, one, two, image, &mut buffer);
    assert_eq!(declined, Err(Decline::ScriptBuffer));
    assert!(buffer.iter().all(|byte| *byte == 0xA5));
}
