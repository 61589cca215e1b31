//! The commands; each gives whether all was as expected.

use std::collections::HashSet;
use std::io::{self, BufRead, BufWriter, Read, Write};
use std::path::{Path, PathBuf};
use std::time::Instant;

use model::cases::{answer_line, left_of_bar, Case};
use model::cuts::cuts;
use model::device::{Device, NVMCON};
use model::flash::reset;
use model::generate::{self, directed, Cases, DEFAULT_WORDS};
use model::geometry::{Banks, Geometry};
use model::script::{bundled, play, unbundled, BYTE_LIMIT};
use model::sequence::new_quad;
use model::store::start_up;
use model::update::{turn, update_start};

/// None where the words are no command.
pub fn run(words: &[&str]) -> Option<io::Result<bool>> {
    match words {
        ["answer"] => Some(answer()),
        ["check", files @ ..] if !files.is_empty() => Some(check(files)),
        ["play"] => Some(play_input()),
        ["scripts", folder] => Some(scripts(Path::new(folder))),
        ["bundle", folder, count] => Some(bundle(Path::new(folder), count.parse().ok()?)),
        ["play_bundle"] => Some(play_bundle()),
        ["directed"] => Some(print_directed(directed::cases(), "")),
        ["directed", subject] => Some(print_directed(directed::cases(), subject)),
        ["directed_requests"] => Some(print_directed(directed::request_cases(), "")),
        ["directed_requests", subject] => Some(print_directed(directed::request_cases(), subject)),
        ["complete", files @ ..] if !files.is_empty() => Some(complete(files)),
        ["cases", seed, count] => cases(Cases::new, seed, count, DEFAULT_WORDS),
        ["cases", seed, count, most] => cases(Cases::new, seed, count, most.parse().ok()?),
        ["requests", seed, count] => cases(Cases::of_requests, seed, count, DEFAULT_WORDS),
        ["requests", seed, count, most] => {
            cases(Cases::of_requests, seed, count, most.parse().ok()?)
        }
        ["script", seed] => script(seed, false),
        ["script", seed, "damaged"] => script(seed, true),
        ["update", quads, boot, program] => {
            let numbers = [
                quads.parse().ok()?,
                boot.parse().ok()?,
                program.parse().ok()?,
            ];
            Some(update(numbers))
        }
        ["cuts"] => Some(print_cuts()),
        _ => None,
    }
}

fn answer() -> io::Result<bool> {
    let mut output = BufWriter::new(io::stdout().lock());
    for line in io::stdin().lock().split(b'\n') {
        let line = String::from_utf8_lossy(&line?).into_owned();
        writeln!(output, "{}", answer_line(&line))?;
    }
    output.flush()?;
    Ok(true)
}

fn check(files: &[&str]) -> io::Result<bool> {
    let (mut cases, mut differences) = (0, 0);
    for file in files {
        let text = std::fs::read_to_string(file)?;
        for (number, line) in text.lines().enumerate() {
            cases += 1;
            let stored = line.split_once(" | ").map_or("", |(_, right)| right);
            if answer_line(line) != stored {
                differences += 1;
                let call = line.split(' ').next().unwrap_or("");
                println!("{file}: line {}: {call} differs", number + 1);
            }
        }
    }
    println!("{cases} cases, {differences} differences");
    Ok(differences == 0)
}

fn play_input() -> io::Result<bool> {
    let mut bytes = Vec::new();
    // One byte above the limit decides the answer.
    let most = BYTE_LIMIT as u64 + 1;
    io::stdin().lock().take(most).read_to_end(&mut bytes)?;
    io::stdout().lock().write_all(play(&bytes).as_bytes())?;
    Ok(true)
}

fn script_paths(folder: &Path) -> io::Result<Vec<PathBuf>> {
    let entries: io::Result<Vec<_>> = std::fs::read_dir(folder)?.collect();
    let mut paths: Vec<PathBuf> = entries?.iter().map(|entry| entry.path()).collect();
    paths.retain(|path| path.extension().is_some_and(|extension| extension == "bin"));
    paths.sort();
    Ok(paths)
}

fn scripts(folder: &Path) -> io::Result<bool> {
    let paths = script_paths(folder)?;
    let mut differences = 0;
    for path in &paths {
        let expected = std::fs::read(path.with_extension("out"))?;
        if play(&std::fs::read(path)?).as_bytes() != expected {
            differences += 1;
            println!("{} differs", path.display());
        }
    }
    println!("{} scripts, {differences} differences", paths.len());
    Ok(differences == 0)
}

/// The scripts of a folder, those at the edges of decline 14, then some made from the seeds 1, 2, ..
fn bundle(folder: &Path, count: u64) -> io::Result<bool> {
    let mut output = BufWriter::new(io::stdout().lock());
    for path in script_paths(folder)? {
        output.write_all(&bundled(&std::fs::read(path)?))?;
    }
    for script in generate::record_edges() {
        output.write_all(&bundled(&script))?;
    }
    for seed in 1..=count {
        output.write_all(&bundled(&generate::script(seed, false)))?;
    }
    output.flush()?;
    Ok(true)
}

fn play_bundle() -> io::Result<bool> {
    let mut bytes = Vec::new();
    io::stdin().lock().read_to_end(&mut bytes)?;
    let text: String = unbundled(&bytes).iter().map(|s| play(s) + "-\n").collect();
    io::stdout().lock().write_all(text.as_bytes())?;
    Ok(true)
}

/// Directed cases of a subject, or all where none is named.
fn print_directed(cases: Vec<(&str, Case)>, subject: &str) -> io::Result<bool> {
    let mut output = BufWriter::new(io::stdout().lock());
    let mut count = 0;
    for (name, case) in cases {
        if subject.is_empty() || subject == name {
            count += 1;
            if let Some(line) = generate::line(&case) {
                writeln!(output, "{line}")?;
            }
        }
    }
    output.flush()?;
    Ok(count > 0)
}

/// The lines of the input, then the cases of files and the directed ones of the base's calls that are not among them.
fn complete(files: &[&str]) -> io::Result<bool> {
    let mut bytes = Vec::new();
    io::stdin().lock().read_to_end(&mut bytes)?;
    // The last line stays without a line feed; the conformance program takes it so.
    if bytes.last() == Some(&b'\n') {
        bytes.pop();
    }
    let text = String::from_utf8_lossy(&bytes).into_owned();
    let mut seen: HashSet<&str> = text.lines().map(left_of_bar).collect();
    let stored: io::Result<Vec<String>> = files.iter().map(std::fs::read_to_string).collect();
    let stored = stored?;
    let directed = directed::base_cases().into_iter();
    let directed: Vec<String> = directed.map(|(_, case)| case.inputs()).collect();
    let stored = stored.iter().flat_map(|text| text.lines());
    for line in stored.chain(directed.iter().map(String::as_str)) {
        if seen.insert(left_of_bar(line)) {
            bytes.push(b'\n');
            bytes.extend_from_slice(line.as_bytes());
        }
    }
    io::stdout().lock().write_all(&bytes)?;
    Ok(true)
}

fn cases(
    make: fn(u64, u32) -> Cases,
    seed: &str,
    count: &str,
    most: u32,
) -> Option<io::Result<bool>> {
    let count: usize = count.parse().ok()?;
    Some(print_cases(make(seed.parse().ok()?, most).take(count)))
}

fn print_cases(cases: impl Iterator<Item = Case>) -> io::Result<bool> {
    let mut output = BufWriter::new(io::stdout().lock());
    for line in cases.filter_map(|case| generate::line(&case)) {
        writeln!(output, "{line}")?;
    }
    output.flush()?;
    Ok(true)
}

fn script(seed: &str, damaged: bool) -> Option<io::Result<bool>> {
    let bytes = generate::script(seed.parse().ok()?, damaged);
    Some(io::stdout().lock().write_all(&bytes).map(|()| true))
}

fn fail(text: String) -> io::Error {
    io::Error::other(text)
}

/// One whole update of a fresh sign.
fn update(numbers: [u32; 3]) -> io::Result<bool> {
    let refused = |refusal: model::Refusal| fail(format!("declined: {}", refusal.number()));
    let geometry = Geometry::new(numbers).map_err(refused)?;
    let [mut one, mut two] = generate::old_bank_one(&geometry, 1);
    let image = generate::random_image(&geometry, 2);
    let old = one.clone();
    let mut banks = Banks {
        one: &mut one,
        two: &mut two,
    };
    let mut device = start_up(numbers, Device::reset_values()).map_err(refused)?;
    let (mut place, total) = update_start(numbers, &device, &banks, &image).map_err(refused)?;
    let begin = Instant::now();
    loop {
        let after = turn(numbers, device, &mut banks, &image, &[], place).map_err(refused)?;
        (device, place) = (after.device, after.place);
        if after.done {
            break;
        }
    }
    let seconds = begin.elapsed().as_secs_f64();
    let device = reset(numbers, device, &mut banks, &[], 0, [0; 4])
        .map_err(refused)?
        .device;
    let device = start_up(numbers, device).map_err(refused)?;
    let mut new = image;
    let index = geometry.sequence_index();
    new[index..index + 4].copy_from_slice(&new_quad(1));
    // Bank 2 stands on the lower alias and region.
    let swapped = device.registers[NVMCON] & 0xC0 == 0xC0;
    if place != total || !swapped || *banks.one != *old || *banks.two != *new {
        return Err(fail(String::from(
            "the update did not end as the paper says",
        )));
    }
    let rate = f64::from(place) / seconds;
    println!("{place} turns, {seconds:.6} seconds, {rate:.0} turns per second");
    Ok(true)
}

fn print_cuts() -> io::Result<bool> {
    io::stdout().lock().write_all(cuts().as_bytes())?;
    Ok(true)
}
