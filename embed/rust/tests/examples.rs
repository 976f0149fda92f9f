//! Each public call has an example, which `cargo test` runs, and the public types that may grow say so.
use std::fs::{read_dir, read_to_string};
use std::path::Path;

// The calls of a file that have no example: their names, where they are public outside `sys.rs`'s declarations.
fn without_example(source: &str) -> Vec<String> {
    let (mut has_example, mut found) = (false, Vec::new());
    for line in source.lines().map(|line| line.strip_prefix("    ").unwrap_or(line)) {
        if line.starts_with("///") {
            has_example |= line == "/// ```";
        } else if let Some(call) =
            line.strip_prefix("pub fn ").or(line.strip_prefix("pub const fn ")).or(line.strip_prefix("pub async fn "))
        {
            let name = call.split(['(', '<']).next().expect("a call has a name");
            if !has_example && !name.starts_with("rd_") {
                found.push(name.to_string());
            }
            has_example = false;
        } else if !line.starts_with("#[") {
            has_example = false;
        }
    }
    found
}

fn sources_in(folder: &Path) -> Vec<String> {
    let files = read_dir(folder).unwrap().map(|file| file.unwrap().path());
    let sources = files.map(|file| match file.is_dir() {
        true => sources_in(&file),
        false => vec![read_to_string(file).unwrap()],
    });
    sources.flatten().collect()
}

fn sources() -> Vec<String> {
    sources_in(&Path::new(env!("CARGO_MANIFEST_DIR")).join("src"))
}

#[test]
fn each_public_call_has_an_example() {
    let source = "    /// Opens.\n    ///\n    /// ```\n    /// x\n    /// ```\n    #[inline]\n    pub fn open() {\n    pub fn close<T>() {";
    assert_eq!(without_example(source), ["close"]);
    let sources = sources();
    assert!(sources.iter().map(|source| source.matches("    pub fn ").count()).sum::<usize>() >= 50);
    assert_eq!(sources.iter().flat_map(|source| without_example(source)).collect::<Vec<_>>(), [""; 0]);
}

#[test]
fn the_enums_that_a_match_may_list_as_a_whole_are_those_of_the_header() {
    let mut whole = Vec::new();
    for source in sources() {
        let mut before = "";
        for line in source.lines() {
            if let Some(name) = line.strip_prefix("pub enum ").filter(|_| before != "#[non_exhaustive]") {
                whole.push(name.trim_end_matches(" {").to_string());
            }
            before = line;
        }
    }
    whole.sort();
    assert_eq!(whole, ["Cause", "Found", "Landed"]);
}
