//! The proved event program and the second program's own, on the same files.

use crate::programs::{self, Input};
use crate::{generate, notation};
use std::fs;
use std::path::Path;
use std::time::Instant;

/// Where a file that shows a difference is kept.
const FOLDER: &str = "target/host";

/// From this many files on, everything that is counted must have been reached.
const ENOUGH: u64 = 300;

/// Answers that an event program can give: 7, 8 and 9 belong to calls that no record makes.
const ANSWERS: [usize; 8] = [0, 1, 2, 3, 4, 5, 6, 10];

#[derive(Default)]
struct Tally {
    bytes: usize,
    longest: usize,
    lines: u64,
    answers: [u64; 11],
    irq: u64,
    sqw: u64,
}

impl Tally {
    fn count(&mut self, file: &[u8], printed: &str) {
        self.bytes += file.len();
        self.longest = self.longest.max(file.len());
        for line in printed.lines() {
            let columns: Vec<usize> = line.split(' ').filter_map(|word| word.parse().ok()).collect();
            if let &[_, answer @ 0..=10, _, irq, sqw] = columns.as_slice() {
                self.lines += 1;
                self.answers[answer] += 1;
                self.irq += u64::from(irq == 1);
                self.sqw += u64::from(sqw == 1);
            }
        }
    }

    fn missing(&self) -> Vec<String> {
        let mut missing: Vec<String> = ANSWERS
            .iter()
            .filter(|&&answer| self.answers[answer] == 0)
            .map(|answer| format!("answer {answer}"))
            .collect();
        missing.extend((self.irq == 0).then(|| "IRQ asserted".to_owned()));
        missing.extend((self.sqw == 0).then(|| "SQW high".to_owned()));
        missing
    }
}

/// Compares so many files. True if all is as it should be.
pub fn compare(files: u64, seed: u64) -> Result<bool, String> {
    let (proved, second) = (programs::proved()?, programs::second()?);
    let start = Instant::now();
    let mut tally = Tally::default();
    fs::create_dir_all(FOLDER).map_err(|error| format!("{FOLDER}: {error}"))?;
    let kept = Path::new(FOLDER).join(format!("events-{seed}.bin"));
    for number in 0..files {
        let file = generate::file(seed, number);
        fs::write(&kept, &file).map_err(|error| format!("{}: {error}", kept.display()))?;
        // Half of the files arrive in pieces that cut records.
        let input = match number % 2 {
            0 => Input::File(&kept),
            _ => Input::Pipe(&file, 1 + (number * 997 % 5_000) as usize),
        };
        let told =
            |error: String| format!("seed {seed}, file {number} of {files}, kept as {}: {error}", kept.display());
        let ours = programs::output(&proved, &input).map_err(told)?;
        let theirs = programs::output(&second, &input).map_err(told)?;
        if let Some(difference) = difference(&file, &ours, &theirs) {
            println!("{}", told(difference));
            return Ok(false);
        }
        tally.count(&file, &String::from_utf8_lossy(&ours));
    }
    let _ = fs::remove_file(&kept);
    let Tally { bytes, longest, lines, .. } = tally;
    let seconds = start.elapsed().as_secs_f64();
    println!(
        "seed {seed}: no difference in {files} files, {bytes} bytes (longest {longest}), {lines} lines, {seconds:.1} s"
    );
    let answers: Vec<String> =
        ANSWERS.iter().map(|&answer| format!("{} times {answer}", tally.answers[answer])).collect();
    println!("answers: {}; {} lines with IRQ asserted, {} with SQW high", answers.join(", "), tally.irq, tally.sqw);
    let missing = if files >= ENOUGH { tally.missing() } else { Vec::new() };
    missing.iter().for_each(|what| println!("not reached: {what}"));
    Ok(missing.is_empty())
}

/// Tells the first line that differs, with the event that caused it.
fn difference(file: &[u8], ours: &[u8], theirs: &[u8]) -> Option<String> {
    if ours == theirs {
        return None;
    }
    let (ours, theirs) = (split(ours), split(theirs));
    let same = ours.iter().zip(&theirs).take_while(|(ours, theirs)| ours == theirs).count();
    let shown = |lines: &[&[u8]]| {
        lines.get(same).map_or("no line".to_owned(), |line| String::from_utf8_lossy(line).escape_debug().to_string())
    };
    let event = file.chunks(notation::RECORD).nth(same).map_or("no event\n".to_owned(), notation::text);
    Some(format!("line {} differs: {}  proved: {}\n  second: {}", same + 1, event, shown(&ours), shown(&theirs)))
}

/// Lines with their ends, so that a missing last end is a difference too.
fn split(bytes: &[u8]) -> Vec<&[u8]> {
    bytes.split_inclusive(|&byte| byte == b'\n').collect()
}

#[cfg(test)]
mod tests {
    use super::*;

    #[test]
    fn the_first_differing_line_is_told() {
        let file = [0, 10, 0, 0, 2, 0, 5, 0, 7];
        let told = |ours: &str, theirs: &str| difference(&file, ours.as_bytes(), theirs.as_bytes());
        assert_eq!(told("1 0 96 0 0\n", "1 0 96 0 0\n"), None);
        let second = told("1 0 96 0 0\n2 0 0 0 0\n", "1 0 96 0 0\n2 0 0 1 0\n").unwrap();
        assert_eq!(second, "line 2 differs: run 5\n  proved: 2 0 0 0 0\\n\n  second: 2 0 0 1 0\\n");
        assert!(told("1\n2\n3", "1\n2\n3\n").unwrap().starts_with("line 3 differs: part 0x07\n"));
        assert!(told("1\n2\n3\n4\n", "1\n2\n3\n").unwrap().ends_with("second: no line"));
    }

    #[test]
    fn what_was_not_reached_is_told() {
        let mut tally = Tally::default();
        tally.count(&[0; 9], "1 0 0 1 0\n2 2 255 0 1\n3 1 0 0 0\n");
        assert_eq!((tally.lines, tally.irq, tally.sqw, tally.longest), (3, 1, 1, 9));
        assert_eq!(tally.missing(), ["answer 3", "answer 4", "answer 5", "answer 6", "answer 10"]);
    }
}
