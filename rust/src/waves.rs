//! A viewer's reader of dumps: a dump goes through GTKWave's vcd2fst and back through its fst2vcd, and each value is looked up in what comes out.

use std::io::ErrorKind;
use std::path::{Path, PathBuf};
use std::process::{Command, id};
use std::str::SplitAsciiWhitespace;
use std::{env, fs};

use crate::dump::names;
use crate::exports::{MODULUS, WIDTH, dump_to};

/// The values of the columns at a time; none where a column was given none yet.
type Row = [Option<u64>; WIDTH];

/// Of the two programs those that are not there.
pub fn missing() -> Vec<&'static str> {
    let is_missing = |name: &&str| matches!(Command::new(name).arg("--help").output(), Err(error) if error.kind() == ErrorKind::NotFound);
    ["vcd2fst", "fst2vcd"].into_iter().filter(is_missing).collect()
}

/// Runs a program and answers what it writes.
fn run(name: &str, words: &[&Path]) -> Result<String, String> {
    let done = Command::new(name).args(words).output().map_err(|error| format!("{name}: {error}"))?;
    if !done.status.success() {
        return Err(format!("{name}: {}, {}", done.status, String::from_utf8_lossy(&done.stderr)));
    }
    String::from_utf8(done.stdout).map_err(|error| format!("{name}: {error}"))
}

/// A dump in any form: its variables' identifiers by column, the rows so far, and how many there may be.
struct Waves {
    identifiers: Vec<(String, usize)>,
    rows: Vec<Row>,
    most: usize,
}

impl Waves {
    /// A part that begins with `$`, up to its `$end`.
    fn part(&mut self, first: &str, words: &mut SplitAsciiWhitespace) -> Result<(), String> {
        if matches!(first, "$dumpvars" | "$end") {
            return Ok(());
        }
        let part: Vec<&str> = words.take_while(|&word| word != "$end").collect();
        let ("$var", [_, size, identifier, name, ..]) = (first, &part[..]) else { return Ok(()) };
        let column = names().iter().position(|wanted| wanted == name).ok_or(format!("a variable {name}"))?;
        self.identifiers.push((identifier.to_string(), column));
        if *size == "64" { Ok(()) } else { Err(format!("{name} has {size} bits")) }
    }

    /// A later time: the rows up to it are as the last.
    fn time(&mut self, digits: &str) -> Result<(), String> {
        let time: usize = digits.parse().map_err(|_| format!("a time {digits}"))?;
        if time < self.rows.len() || time >= self.most {
            return Err(format!("time {time} behind {} of {} rows", self.rows.len(), self.most));
        }
        let last = self.rows.last().copied().unwrap_or([None; WIDTH]);
        self.rows.resize(time + 1, last);
        Ok(())
    }

    /// A value of a variable, with leading zeros or without.
    fn value(&mut self, digits: &str, identifier: &str) -> Result<(), String> {
        let value = u64::from_str_radix(digits, 2).map_err(|_| format!("a value {digits}"))?;
        let (_, column) = self.identifiers.iter().find(|(own, _)| own == identifier).ok_or(format!("no variable {identifier}"))?;
        self.rows.last_mut().ok_or("a value before the first time")?[*column] = Some(value);
        Ok(())
    }

    fn read(text: &str, most: usize) -> Result<Self, String> {
        let mut waves = Self { identifiers: Vec::new(), rows: Vec::new(), most };
        let mut words = text.split_ascii_whitespace();
        while let Some(word) = words.next() {
            match word.split_at(1) {
                ("$", _) => waves.part(word, &mut words)?,
                ("#", digits) => waves.time(digits)?,
                ("b", digits) => waves.value(digits, words.next().unwrap_or(""))?,
                _ => return Err(format!("a word {word}")),
            }
        }
        Ok(waves)
    }
}

/// A folder of this run, removed at its end.
struct Folder(PathBuf);

impl Drop for Folder {
    fn drop(&mut self) {
        let _ = fs::remove_dir_all(&self.0);
    }
}

/// The values of all columns at every time, as the two programs hand the dump of a buffer on.
fn handed_on(cells: &[u64]) -> Result<Vec<Row>, String> {
    let path = env::temp_dir().join(format!("core-trace-{}", id()));
    fs::create_dir(&path).map_err(|error| error.to_string())?;
    let folder = Folder(path);
    let (dump, waves) = (folder.0.join("trace.vcd"), folder.0.join("trace.fst"));
    let mut file = fs::File::create(&dump).map_err(|error| error.to_string())?;
    dump_to(cells, &mut file).map_err(|error| error.to_string())?;
    run("vcd2fst", &[&dump, &waves])?;
    Waves::read(&run("fst2vcd", &[&waves])?, cells.len() / WIDTH).map(|waves| waves.rows)
}

/// Compares each value of all columns at every time with the buffer's reduced cells. Answers how many there are.
pub fn compare(cells: &[u64]) -> Result<usize, String> {
    let rows = handed_on(cells)?;
    if rows.len() != cells.len() / WIDTH {
        return Err(format!("{} times for {} rows", rows.len(), cells.len() / WIDTH));
    }
    match rows.as_flattened().iter().zip(cells).position(|(value, cell)| *value != Some(cell % MODULUS)) {
        Some(at) => Err(format!("time {}, {}: {:?} for {}", at / WIDTH, names()[at % WIDTH], rows.as_flattened()[at], cells[at])),
        None => Ok(cells.len()),
    }
}
