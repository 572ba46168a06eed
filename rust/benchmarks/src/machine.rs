//! What the figures were measured on.

use std::fs;
use std::thread;

/// The processor, its cores and the compiler, and how busy the machine was with other work when the run began.
pub fn description() -> String {
    format!(
        "{}, {} cores, {}\nLoad when the run began: {}",
        processor(),
        cores(),
        env!("COMPILER"),
        load()
    )
}

/// The cores that the program may use.
pub fn cores() -> usize {
    thread::available_parallelism().map_or(1, |cores| cores.get())
}

/// The processor's name as Linux gives it.
fn processor() -> String {
    let facts = fs::read_to_string("/proc/cpuinfo").unwrap_or_default();
    let name = facts
        .lines()
        .find_map(|line| line.strip_prefix("model name")?.split_once(": "));
    name.map_or("processor not named".to_string(), |(_, name)| name.to_string())
}

/// The load of the last minute: how many programs wanted a core at a time.
fn load() -> String {
    let loads = fs::read_to_string("/proc/loadavg").unwrap_or_default();
    loads.split_whitespace().next().unwrap_or("not known").to_string()
}
