//! Finds the four archives of the proved library: in the directory that the environment variable
//! SATMEGWO_STATICLIB names, or else in target/staticlib of the repository that this package lies in.
use std::env;
use std::path::{Path, PathBuf};
use std::process::ExitCode;

const ARCHIVES: [&str; 4] = ["libsatmegwo.a", "libsatmegwo_parts.a", "libsatmegwo_design.a", "libsatmegwo_server.a"];

fn main() -> ExitCode {
    println!("cargo:rerun-if-env-changed=SATMEGWO_STATICLIB");
    let package = PathBuf::from(env::var_os("CARGO_MANIFEST_DIR").expect("cargo sets this"));
    let given = env::var_os("SATMEGWO_STATICLIB").map(PathBuf::from);
    let directory = package.join(given.as_deref().unwrap_or(Path::new("../target/staticlib")));
    for archive in ARCHIVES {
        println!("cargo:rerun-if-changed={}", directory.join(archive).display());
    }
    let missing: Vec<&str> = ARCHIVES.into_iter().filter(|archive| !directory.join(archive).is_file()).collect();
    if !missing.is_empty() {
        eprintln!("{}", what_to_do(&directory, &missing, given.is_some()));
        return ExitCode::FAILURE;
    }
    println!("cargo:rustc-link-search=native={}", directory.display());
    ExitCode::SUCCESS
}

fn what_to_do(directory: &Path, missing: &[&str], given: bool) -> String {
    let said = if given { "which SATMEGWO_STATICLIB names" } else { "since SATMEGWO_STATICLIB names no other directory" };
    let missing = missing.join(", ");
    format!(
        "satmegwo: {missing} not found in {}, {said}.\n\
         Run `make` in the root of Satmegwo's repository (it proves the library and writes the archives to target/staticlib),\n\
         or set SATMEGWO_STATICLIB to the directory that has them.",
        directory.display()
    )
}
