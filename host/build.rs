//! Links the proved libraries, `libcalls.a` (the reader) and `libgate.a` (the
//! position gate).
//!
//! The archives are those in the directory `IXML_LIB_DIR`, if that is set.
//! Otherwise they are those in `target/staticlib/` of the repository, made by
//! `tools/staticlib` where they are missing or older than what a proof reads.
//!
//! An archive that lacks one of its calls is not linked. For the tests there is a
//! `cfg` `xmllint` where that program is found.

use std::path::{Path, PathBuf};
use std::process::Command;
use std::{env, fs, io};

/// The crates that are libraries, what each exports, and the variable that tells
/// the tests where its archive is.
const LIBRARIES: [(&str, &[&str], &str); 2] = [
    (
        "calls",
        &[
            "ixml_check",
            "ixml_tidy",
            "ixml_category",
            "ixml_read",
            "ixml_read_plain",
            "ixml_convert",
            "ixml_judge",
            "ixml_start",
            "ixml_round",
            "ixml_finish_read",
            "ixml_finish_convert",
        ],
        "IXML_ARCHIVE",
    ),
    (
        "gate",
        &[
            "ixml_gate_box",
            "ixml_gate_band",
            "ixml_gate_anywhere",
            "ixml_number",
        ],
        "IXML_GATE_ARCHIVE",
    ),
];

fn main() {
    println!("cargo:rerun-if-env-changed=IXML_LIB_DIR");
    let lent = env::var_os("IXML_LIB_DIR").map(PathBuf::from);
    let repository = Path::new(env!("CARGO_MANIFEST_DIR")).join("..");
    for (library, calls, variable) in LIBRARIES {
        let directory = lent.clone().unwrap_or_else(|| built(&repository, library));
        let archive = directory.join(file(library));
        println!("cargo:rerun-if-changed={}", archive.display());
        check(&archive, calls);
        println!("cargo:rustc-env={variable}={}", archive.display());
        println!("cargo:rustc-link-search=native={}", directory.display());
        println!("cargo:rustc-link-lib=static={library}");
    }
    if has_xmllint() {
        println!("cargo:rustc-cfg=xmllint");
    }
}

/// The name of a library's archive.
fn file(library: &str) -> String {
    format!("lib{library}.a")
}

/// Panics unless the archive has all of the calls.
fn check(archive: &Path, calls: &[&str]) {
    let content = fs::read(archive)
        .unwrap_or_else(|error| panic!("cannot read {}: {error}", archive.display()));
    let symbols = symbols(&content)
        .unwrap_or_else(|| panic!("{} is no archive with an index", archive.display()));
    for call in calls {
        let has = symbols.contains(&call.as_bytes());
        assert!(has, "{} has no {call}", archive.display());
    }
}

/// Whether xmllint can be run. If not, it is looked for again at each build.
fn has_xmllint() -> bool {
    println!("cargo:rerun-if-changed=/usr/bin/xmllint");
    Command::new("xmllint").arg("--version").output().is_ok()
}

/// The directory of the repository's archive of a library, which is made if need
/// be.
fn built(repository: &Path, library: &str) -> PathBuf {
    let crates = repository.join("crates");
    assert!(
        crates.join(format!("{library}_c")).is_dir(),
        "the repository has no crate `{library}_c` to build a library from; \
         IXML_LIB_DIR may name a directory with {}",
        file(library)
    );
    println!("cargo:rerun-if-changed={}/crates.txt", repository.display());
    for source in sources(&crates).expect("the repository's crates") {
        println!("cargo:rerun-if-changed={}", source.display());
    }
    let status = Command::new(repository.join("tools/staticlib"))
        .arg(library)
        .status()
        .unwrap_or_else(|error| panic!("cannot run tools/staticlib: {error}"));
    assert!(status.success(), "`tools/staticlib {library}` failed");
    repository.join("target/staticlib")
}

/// The directories of the files that proofs read: a crate has others for what is
/// made of these.
fn sources(crates: &Path) -> io::Result<Vec<PathBuf>> {
    let mut found = Vec::new();
    for entry in fs::read_dir(crates)? {
        let folder = entry?.path();
        let parts = ["src", "specs", "proofs"].map(|part| folder.join(part));
        found.extend(parts.into_iter().filter(|part| part.is_dir()));
    }
    Ok(found)
}

/// The names in an archive's index, its first member: a count, as many member
/// offsets, then the names, each with a NUL behind it. Numbers are of 32 bits,
/// the highest byte first.
fn symbols(archive: &[u8]) -> Option<Vec<&[u8]>> {
    let member = archive.strip_prefix(b"!<arch>\n")?;
    let (header, content) = member.split_at_checked(60)?;
    if !header.starts_with(b"/ ") {
        return None;
    }
    let length = std::str::from_utf8(&header[48..58]).ok()?;
    let index = content.get(..length.trim().parse().ok()?)?;
    let (count, rest) = index.split_first_chunk()?;
    let count = u32::from_be_bytes(*count) as usize;
    let names = rest.get(4 * count..)?;
    Some(names.split(|&byte| byte == 0).take(count).collect())
}
