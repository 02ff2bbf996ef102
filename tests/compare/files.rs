//! `second files` and `second stored`: all files that are stored beside the library and that the
//! second program can make itself.
use second_model::model::file_of;
use second_model::printed;
use second_model::published;
use second_model::sheet::sheet;
use std::fs;
use std::path::Path;

/// The directory above this package.
pub const ROOT: &str = concat!(env!("CARGO_MANIFEST_DIR"), "/..");

/// A file by its place below the root, and its content.
type File = (String, Vec<u8>);

/// The published boxes with their sheets, what the C programs of examples/ print, and what the
/// programs of the crates read and print.
fn all() -> Result<Vec<File>, String> {
    let mut files = Vec::new();
    for known in published::all() {
        let file = file_of(known.n, known.m, &known.rows);
        files.push((format!("examples/{}.sheet", known.name), sheet(&file).into_bytes()));
        files.push((format!("examples/{}.box", known.name), file));
    }
    let example = printed::file_named("example");
    let boxes = ["example", "des-s1", "aes", "aes-round", "kim-4"];
    let spectra = read(&Path::new(ROOT).join("crates/spectra/stdin"))?;
    let texts = [
        ("examples/example.stdout", printed::example()),
        ("examples/refusals.stdout", printed::refusals()),
        ("examples/catalogue.stdout", printed::catalogue(2, &boxes)),
        ("examples/pairs.stdout", printed::pairs(4, "des-s4")),
        ("examples/parts.stdout", printed::parts(1, "des-s1")),
        ("examples/packing.stdout", printed::packing("aes")),
        ("examples/improve.stdout", printed::improve("des-s1")),
        ("examples/design.stdout", printed::design()),
        ("examples/server.stdout", printed::server(["example", "des-s1", "present"])),
        ("examples/fields.stdout", printed::fields()),
        ("crates/boxsheet/stdout", sheet(&example)),
        ("crates/published/stdout", printed::published_output()),
        ("crates/spectra/stdout", printed::spectra_output(&String::from_utf8_lossy(&spectra))),
    ];
    files.extend(texts.map(|(name, text)| (name.to_string(), text.into_bytes())));
    files.push(("crates/boxsheet/stdin".to_string(), example));
    files.push(("crates/published/stdin".to_string(), printed::published_input()));
    Ok(files)
}

fn read(path: &Path) -> Result<Vec<u8>, String> {
    fs::read(path).map_err(|error| format!("{}: {error}", path.display()))
}

/// Writes all of them below a directory.
pub fn write(directory: &Path) -> Result<bool, String> {
    let files = all()?;
    for (name, content) in &files {
        let path = directory.join(name);
        let parent = path.parent().expect("it lies in a directory");
        fs::create_dir_all(parent).map_err(|error| format!("{}: {error}", parent.display()))?;
        fs::write(&path, content).map_err(|error| format!("{}: {error}", path.display()))?;
    }
    println!("{} files written to {}", files.len(), directory.display());
    Ok(true)
}

/// Compares all of them with what is stored.
pub fn compare_stored() -> Result<bool, String> {
    let files = all()?;
    let mut differences = 0;
    for (name, content) in &files {
        let stored = read(&Path::new(ROOT).join(name))?;
        if stored != *content {
            differences += 1;
            println!("difference: {name} is not what the second program makes:\n{}", String::from_utf8_lossy(content));
        }
    }
    println!("{} stored files compared, {differences} differences", files.len());
    Ok(differences == 0)
}
