use std::path::Path;

const LIBRARY: &str = "librookdresser.a";

/// The folders in which the library may be, the first first, and what cargo watches for a change of it.
fn places() -> (Vec<String>, String) {
    let own = std::env::var("CARGO_MANIFEST_DIR").expect("cargo sets it");
    let carried = format!("{own}/lib");
    let one = std::env::var("ROOKDRESSER_LIB").ok().or_else(|| Path::new(&carried).exists().then_some(carried));
    if let Some(folder) = one {
        let watched = format!("{folder}/{LIBRARY}");
        return (vec![folder], watched);
    }
    // A clone: once a proved library is built, it takes the place of an unproved one.
    let out = format!("{own}/../../out");
    (["embed", "embed-unproved"].map(|name| format!("{out}/{name}")).into(), out)
}

/// Links the library of the folder that ROOKDRESSER_LIB names; or of lib/, in a release; or of where tools/embed builds it in a clone.
fn main() {
    let (folders, watched) = places();
    println!("cargo:rerun-if-env-changed=ROOKDRESSER_LIB");
    println!("cargo:rerun-if-changed={watched}");
    let Some(folder) = folders.iter().find(|folder| Path::new(folder).join(LIBRARY).exists()) else {
        eprintln!(
            "There is no {LIBRARY} in {}. In a clone, `sh tools/embed --unproved` builds it in a minute or two without any \
             proof, and `sh tools/embed` proves it first, in most of an hour. Or ROOKDRESSER_LIB names its folder.",
            folders.join(" or ")
        );
        std::process::exit(1);
    };
    println!("cargo:rustc-check-cfg=cfg(rookdresser_under_thread_sanitizer)");
    println!("cargo:rustc-link-search=native={folder}");
    println!("cargo:rustc-link-lib=static=rookdresser");
    write_front_page();
}

// The front page of cargo doc is the README, beside which cargo doc has no other file: links to files become text.
fn write_front_page() {
    println!("cargo:rerun-if-changed=README.md");
    let page = std::fs::read_to_string("README.md").expect("the crate has a README");
    let to = std::env::var("OUT_DIR").expect("cargo sets it") + "/README.md";
    std::fs::write(to, without_files(&page)).expect("cargo made the folder");
}

fn without_files(page: &str) -> String {
    let (mut whole, mut left) = (String::new(), page);
    while let Some((before, after)) = left.split_once("](") {
        let target = after.split(')').next().unwrap_or("");
        match before.rsplit_once('[') {
            Some((text, shown)) if target.contains(".md") && !target.contains(':') => {
                whole += &format!("{text}{shown}");
                left = &after[target.len() + 1..];
            }
            _ => {
                whole += &format!("{before}](");
                left = after;
            }
        }
    }
    whole + left
}
