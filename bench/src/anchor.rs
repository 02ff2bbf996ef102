//! The C program whose time stands for what is possible: compiled and run where it lies.
use std::fs;
use std::process::Command;

const RUNS: usize = 7;

/// The least time, in seconds, that the program prints over a few runs.
pub fn time(source: &str) -> Result<f64, String> {
    let program = std::env::temp_dir().join(format!("anchor-{}", std::process::id()));
    let compiled = Command::new("gcc").args(["-O3", source, "-o"]).arg(&program).status();
    if !compiled.map_err(|error| format!("gcc: {error}"))?.success() {
        return Err(format!("gcc does not compile {source}"));
    }
    let mut least = Err(format!("{source} prints no time"));
    for _ in 0..RUNS {
        let output = Command::new(&program).output().map_err(|error| format!("{source}: {error}"))?;
        if let Some(seconds) = printed_time(&String::from_utf8_lossy(&output.stdout)) {
            least = Ok(least.unwrap_or(f64::MAX).min(seconds));
        }
    }
    // A file left behind in the temporary directory would do no harm.
    let _ = fs::remove_file(&program);
    least
}

/// The number before a closing `s`.
fn printed_time(text: &str) -> Option<f64> {
    text.trim_end().strip_suffix(" s")?.rsplit(' ').next()?.parse().ok()
}
