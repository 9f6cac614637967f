//! What was measured on, and with what.

use std::fs;
use std::process::Command;
use std::thread;

/// The versions of the crates, as cargo chose them for this program.
const LOCK: &str = include_str!("../Cargo.lock");

/// A table of it.
pub fn table() -> String {
    let cores = thread::available_parallelism().map_or(0, usize::from);
    format!(
        "| | |\n|---|---|\n\
        | date | {} |\n\
        | processor | {}, {cores} cores |\n\
        | load of the machine at the start | {} |\n\
        | compiler | {} |\n\
        | compared with | csv {}, shell-words {}, tera {} (without its default features) |\n",
        output("date", &["-u", "+%F"]),
        processor(),
        load(),
        output("rustc", &["--version"]),
        version("csv"),
        version("shell-words"),
        version("tera"),
    )
}

const UNKNOWN: &str = "unknown";

fn output(program: &str, arguments: &[&str]) -> String {
    let output = Command::new(program).args(arguments).output();
    output.map_or(UNKNOWN.into(), |output| {
        String::from_utf8_lossy(&output.stdout).trim().into()
    })
}

fn processor() -> String {
    let told = fs::read_to_string("/proc/cpuinfo").unwrap_or_default();
    let model = told.lines().find(|line| line.starts_with("model name"));
    let model = model.and_then(|line| line.split_once(": "));
    model.map_or(UNKNOWN, |(_, model)| model).into()
}

/// How many processes were running, on average over a minute.
fn load() -> String {
    let told = fs::read_to_string("/proc/loadavg").unwrap_or_default();
    told.split(' ').next().unwrap_or(UNKNOWN).into()
}

fn version(name: &str) -> &'static str {
    let (_, entry) = LOCK
        .split_once(&format!("name = \"{name}\"\nversion = \""))
        .expect("the crate is a dependency");
    entry.split('"').next().unwrap_or(UNKNOWN)
}
