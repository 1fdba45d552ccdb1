//! What the figures were measured on.

use std::fs::read_to_string;
use std::process::Command;

use core_trace::clock::time;

use super::rounds::{power, rounds};

fn processor() -> String {
    let told = read_to_string("/proc/cpuinfo").unwrap_or_default();
    let name = told.lines().find_map(|line| line.strip_prefix("model name")?.split_once(": "));
    name.map_or("an unknown processor".into(), |(_, name)| name.into())
}

fn caches() -> String {
    let told = |i: usize, what: &str| read_to_string(format!("/sys/devices/system/cpu/cpu0/cache/index{i}/{what}")).unwrap_or_default();
    let cache = |i: usize| {
        let (level, kind, size) = (told(i, "level"), told(i, "type"), told(i, "size"));
        (!level.is_empty() && kind.trim() != "Instruction").then(|| format!("L{} {} KiB", level.trim(), size.trim().trim_end_matches('K')))
    };
    (0..4).filter_map(cache).collect::<Vec<_>>().join(", ")
}

/// The average load of the last minute.
pub fn load() -> String {
    read_to_string("/proc/loadavg").unwrap_or_default().split(' ').next().unwrap_or_default().into()
}

fn huge_pages() -> String {
    let told = read_to_string("/sys/kernel/mm/transparent_hugepage/enabled").unwrap_or_default();
    let set = told.split_once('[').and_then(|(_, rest)| rest.split_once(']'));
    set.map_or("not there".into(), |(set, _)| set.into())
}

fn compiler() -> String {
    let told = Command::new("rustc").arg("--version").output().map(|said| String::from_utf8_lossy(&said.stdout).trim().to_string());
    told.unwrap_or("an unknown rustc".into())
}

/// What the clock itself adds to each figure: the median of readings with nothing between.
fn clock() -> f64 {
    let mut times: Vec<f64> = (0..1001).map(|_| time(|| ()).0).collect();
    times.sort_by(f64::total_cmp);
    times[500]
}

pub fn print(most: usize) {
    let cores = std::thread::available_parallelism().map_or(1, |n| n.get());
    println!("## The machine, and how it was measured\n");
    println!("`rust/run bench {most}`, up to {} rows. {cores} cores of {}; caches {}.", power(most), processor(), caches());
    println!("Pages of 4 KiB; transparent huge pages: {}. {}. The load was {} at the start.", huge_pages(), compiler(), load());
    println!("\nTimes are processor time of one thread in nanoseconds: medians over rounds in which the works of a line are made in turn");
    println!("({} rounds at 2^10 rows, {} at {}). A ratio is that of the medians;", rounds(10), rounds(most), power(most));
    println!("in brackets stand the least and the greatest ratio of a round. What the sides of a line make is compared, and equal.");
    println!("Two readings of the clock are {:.0} ns apart: so much is in each time, which matters for calls below 10 µs.", clock());
}
