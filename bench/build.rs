//! Compiles the C peers of peers/ with gcc. Keeps what compiled them and the others, for the table.
use std::env;
use std::fs;
use std::path::{Path, PathBuf};
use std::process::{Command, ExitCode};

/// Functions begin on cache lines: where the linker happens to put them made a peer slower by an eighth.
const FLAGS: [&str; 8] = ["-std=c11", "-O3", "-march=x86-64", "-falign-functions=64", "-Wall", "-Wextra", "-Wpedantic", "-Werror"];

fn main() -> ExitCode {
    let package = PathBuf::from(env::var("CARGO_MANIFEST_DIR").expect("cargo sets this"));
    println!("cargo:rustc-env=LIBRARY_COMPILER={}", version("rt", "version"));
    println!("cargo:rustc-env=SECOND_COMPILER={}", version(&env::var("RUSTC").expect("cargo sets this"), "--version"));
    println!("cargo:rustc-env=PEER_COMPILER={}", version("gcc", "--version"));
    match compile_peers(&package) {
        Ok(()) => ExitCode::SUCCESS,
        Err(message) => {
            eprintln!("{message}");
            ExitCode::FAILURE
        }
    }
}

/// The first line that a compiler says of itself.
fn version(compiler: &str, word: &str) -> String {
    let output = Command::new(compiler).arg(word).output();
    let text = output.map(|output| String::from_utf8_lossy(&output.stdout).into_owned()).unwrap_or_default();
    text.lines().next().unwrap_or("an unknown compiler").to_string()
}

/// Makes libpeers.a of all C files of peers/, each compiled by itself.
fn compile_peers(package: &Path) -> Result<(), String> {
    let (sources, out) = (package.join("peers"), PathBuf::from(env::var("OUT_DIR").expect("cargo sets this")));
    for directory in [&sources, &package.join("../include")] {
        println!("cargo:rerun-if-changed={}", directory.display());
    }
    let mut objects = Vec::new();
    for entry in fs::read_dir(&sources).map_err(|error| format!("{}: {error}", sources.display()))? {
        let source = entry.map_err(|error| format!("{}: {error}", sources.display()))?.path();
        if source.extension().is_some_and(|extension| extension == "c") {
            let object = out.join(source.file_stem().expect("a file has a name")).with_extension("o");
            run(Command::new("gcc").args(FLAGS).arg("-I").arg(package.join("../include")).arg("-c").arg(&source).arg("-o").arg(&object))?;
            objects.push(object);
        }
    }
    let archive = out.join("libpeers.a");
    // `ar` adds to an archive that is there, and would keep what is no longer in peers/.
    if archive.exists() {
        fs::remove_file(&archive).map_err(|error| format!("{}: {error}", archive.display()))?;
    }
    run(Command::new("ar").arg("crs").arg(&archive).args(&objects))?;
    println!("cargo:rustc-link-search=native={}", out.display());
    Ok(())
}

fn run(command: &mut Command) -> Result<(), String> {
    let name = command.get_program().to_string_lossy().into_owned();
    match command.status() {
        Ok(status) if status.success() => Ok(()),
        Ok(_) => Err(format!("{name} failed on the C peers in bench/peers; what it says stands above")),
        Err(error) => Err(format!("{name} cannot be started ({error}); the benchmark needs gcc and ar for the C peers in bench/peers")),
    }
}
