//! What the times were measured on, and by whom the programs were compiled: times compare only with these.
use std::fs;
use std::process::Command;

pub fn described(seed: u64, processes: usize) -> String {
    format!(
        "{}, {}, load {} when it began. Least of {processes} processes, seed {seed}.\n\
         Library: {}. Second: {}. C peers: {}, -O3 -march=x86-64.",
        date(),
        processor(),
        load(),
        env!("LIBRARY_COMPILER"),
        env!("SECOND_COMPILER"),
        env!("PEER_COMPILER"),
    )
}

fn date() -> String {
    let output = Command::new("date").arg("+%Y-%m-%d").output();
    output.map(|output| String::from_utf8_lossy(&output.stdout).trim().to_string()).unwrap_or_default()
}

/// The kind of processor.
fn processor() -> String {
    let text = fs::read_to_string("/proc/cpuinfo").unwrap_or_default();
    let value = |key: &str| text.lines().find(|line| line.starts_with(key)).and_then(|line| line.split(": ").nth(1));
    let name = value("model name").unwrap_or("an unknown processor");
    format!("{name} (family {}, model {})", value("cpu family").unwrap_or("?"), value("model\t").unwrap_or("?"))
}

/// How many processes wanted a processor, on average over the last minute.
fn load() -> String {
    let text = fs::read_to_string("/proc/loadavg").unwrap_or_default();
    text.split(' ').next().unwrap_or_default().to_string()
}
