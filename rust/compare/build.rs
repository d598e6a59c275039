//! Makes a copy of the second implementation that holds every fault of
//! `src/faults/faults.txt`, to be planted one at a time.
//!
//! The copy is one file, `faulty.rs`, with the modules of the second
//! implementation in it. Its text is that of the sources without comments and
//! with every run of blanks made one, so that edits need not care how lines
//! are broken. A fault whose edits do not fit the sources is left out, and
//! `compare --faults` says so.

use std::error::Error;
use std::fmt::Write;
use std::path::Path;
use std::{env, fs};

/// The files that are not copied: the list of modules, and what builds frames.
const LEFT_OUT: [&str; 2] = ["lib", "bytes"];

/// Where the copy stands in the crate.
const HOME: &str = "crate::faults::faulty";

fn main() -> Result<(), Box<dyn Error>> {
    let here = env::var("CARGO_MANIFEST_DIR")?;
    let here = Path::new(&here);
    let listed = here.join("src/faults/faults.txt");
    let sources = here.join("../reference/src");
    println!("cargo:rerun-if-changed={}", listed.display());
    println!("cargo:rerun-if-changed={}", sources.display());

    let mut modules = Vec::new();
    for file in fs::read_dir(sources)? {
        let path = file?.path();
        let name = path.file_stem().unwrap_or_default().to_string_lossy();
        if !LEFT_OUT.contains(&&*name) {
            modules.push((name.into_owned(), plain(&fs::read_to_string(&path)?)));
        }
    }
    modules.sort();
    let listed = fs::read_to_string(listed)?;
    let mut names = Vec::new();
    let mut misfits = Vec::new();
    let mut wrongs = Vec::new();
    for fault in read_faults(&listed)? {
        // All edits of a fault, or none of them.
        let mut edited = modules.clone();
        let mut edits = fault.edits.iter();
        match edits.try_for_each(|edit| apply(&mut edited, &mut wrongs, names.len(), edit)) {
            Ok(()) => {
                modules = edited;
                names.push(fault.name);
            }
            Err(why) => misfits.push(format!("{}: {why}", fault.name)),
        }
    }

    let mut copy = String::new();
    for (name, mut text) in modules {
        for (mark, wrong) in &wrongs {
            text = text.replace(mark, wrong);
        }
        let text = text.replace("crate::", &format!("{HOME}::"));
        writeln!(copy, "pub mod {name} {{\n{text}\n}}")?;
    }
    writeln!(copy, "pub const NAMES: &[&str] = &{names:?};")?;
    writeln!(copy, "pub const MISFITS: &[&str] = &{misfits:?};")?;
    fs::write(Path::new(&env::var("OUT_DIR")?).join("faulty.rs"), copy)?;
    Ok(())
}

struct Fault<'a> {
    name: &'a str,
    edits: Vec<Edit<'a>>,
}

struct Edit<'a> {
    module: &'a str,
    always: bool,
    old: String,
    new: String,
}

fn read_faults(listed: &str) -> Result<Vec<Fault<'_>>, Box<dyn Error>> {
    let mut faults: Vec<Fault<'_>> = Vec::new();
    for (at, line) in listed.lines().enumerate() {
        let misplaced = || format!("faults.txt, line {}: {line}", at + 1);
        if line.is_empty() || line.starts_with('#') {
            continue;
        }
        if let Some(name) = line.strip_prefix("fault ") {
            faults.push(Fault {
                name,
                edits: Vec::new(),
            });
            continue;
        }
        let edits = &mut faults.last_mut().ok_or_else(misplaced)?.edits;
        if let Some(module) = line.strip_prefix("in ") {
            let always = module.strip_suffix(" always");
            edits.push(Edit {
                module: always.unwrap_or(module),
                always: always.is_some(),
                old: String::new(),
                new: String::new(),
            });
            continue;
        }
        let edit = edits.last_mut().ok_or_else(misplaced)?;
        let (text, rest) = match line.split_at(1) {
            ("-", rest) => (&mut edit.old, rest),
            ("+", rest) => (&mut edit.new, rest),
            _ => return Err(misplaced().into()),
        };
        text.push_str(rest);
        text.push('\n');
    }
    Ok(faults)
}

/// Puts an edit into its module. What stands instead of something goes to
/// `wrongs`, with the mark that is left in its place.
fn apply(
    modules: &mut [(String, String)],
    wrongs: &mut Vec<(String, String)>,
    number: usize,
    edit: &Edit<'_>,
) -> Result<(), String> {
    let (_, text) = modules
        .iter_mut()
        .find(|(name, _)| *name == edit.module)
        .ok_or(format!("there is no file {}", edit.module))?;
    let (old, new) = (plain(&edit.old), plain(&edit.new));
    let times = text.matches(&old).count();
    if old.is_empty() || times != 1 {
        return Err(format!("stands {times} times in {}: {old}", edit.module));
    }
    let planted = format!("crate::planted({number})");
    let new = if edit.always {
        new
    } else if new.contains("PLANTED") {
        new.replace("PLANTED", &planted)
    } else {
        // Later edits are about what is right, so they must not see this.
        let wrong = format!("wrong_{}!()", wrongs.len());
        wrongs.push((wrong.clone(), new));
        let choice = format!("if {planted} {{ {wrong} }} else {{ {old} }}");
        if old.ends_with([';', '}']) {
            choice
        } else {
            format!("({choice})")
        }
    };
    *text = text.replacen(&old, &new, 1);
    Ok(())
}

/// Rust text without comments, and with blanks made alike.
fn plain(text: &str) -> String {
    let uncommented = text.lines().filter_map(|line| line.split("//").next());
    let words: Vec<&str> = uncommented.flat_map(str::split_whitespace).collect();
    words
        .join(" ")
        .replace(" .", ".")
        .replace("( ", "(")
        .replace(", )", ")")
        .replace(" )", ")")
}
