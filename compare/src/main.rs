//! `answers DIR` writes what the source answers, a file an operation; `check DIR` works stored cases again; `patches` lists what was changed in the
//! source; `compare` holds the library against the source, and `measure` times both. README.md says more.

use compare::cases::{operations, text, Operation};
use compare::runs;
use std::io::Write;
use std::path::Path;
use std::{env, fs, io, process};

#[allow(dead_code)]
#[path = "../patches.rs"]
mod patches;

fn main() -> io::Result<()> {
    let words: Vec<String> = env::args().skip(1).collect();
    match words.iter().map(String::as_str).collect::<Vec<_>>()[..] {
        ["answers", dir] => answers(Path::new(dir)),
        ["check", dir] => check(Path::new(dir)),
        ["patches"] => {
            list_patches();
            Ok(())
        }
        #[cfg(ours)]
        ["compare"] => compare(DEFAULT_COUNT),
        #[cfg(ours)]
        ["compare", count] if count.parse::<usize>().is_ok() => compare(count.parse().unwrap()),
        #[cfg(ours)]
        ["measure"] => {
            compare::measure::measure();
            Ok(())
        }
        #[cfg(not(ours))]
        ["compare", ..] | ["measure"] => {
            eprintln!("built without the library: run `tools/staticlib` in the repository's root first");
            process::exit(2)
        }
        _ => {
            eprintln!("usage: compare answers DIR | check DIR | patches | compare [COUNT] | measure");
            process::exit(2)
        }
    }
}

/// Writes DIR/NAME.txt for each operation.
fn answers(dir: &Path) -> io::Result<()> {
    fs::create_dir_all(dir)?;
    for operation in operations() {
        let path = dir.join(format!("{}.txt", operation.name));
        fs::write(&path, file(&operation))?;
        eprintln!("{}", path.display());
    }
    Ok(())
}

fn file(operation: &Operation) -> Vec<u8> {
    let mut out = Vec::new();
    writeln!(out, "# {}: {} = refusal, {}", operation.name, operation.given, operation.answer).unwrap();
    for case in operation.cases() {
        writeln!(out, "{} = {}", text(&case), (operation.rust)(&case).text()).unwrap();
    }
    out
}

/// Works every stored case again and compares the answers.
fn check(dir: &Path) -> io::Result<()> {
    let mut bad = 0;
    for operation in operations() {
        let file = fs::read_to_string(dir.join(format!("{}.txt", operation.name)))?;
        let (cases, wrong) = runs::stored(&operation, &file, &operation.rust);
        println!("{}: {cases} cases, {} differ", operation.name, wrong.len());
        for line in &wrong {
            println!("{line}");
        }
        bad += wrong.len();
    }
    process::exit(if bad == 0 { 0 } else { 1 })
}

/// Random cases of a cheap operation, where no count is given.
#[cfg(ours)]
const DEFAULT_COUNT: usize = 20_000;

/// How much dearer than a cheap one a case of an operation is.
#[cfg(ours)]
fn cost(name: &str) -> usize {
    match name {
        "sub_center_contacts_ders" | "vder_info" => 4,
        _ => 1,
    }
}

/// Holds the library against the source on the stored cases and on `count` random ones an operation, and against document 01 where the source has no
/// counterpart.
#[cfg(ours)]
fn compare(count: usize) -> io::Result<()> {
    use compare::{cases::added, inputs::Random, ours::ours};

    let stored = Path::new(env!("CARGO_MANIFEST_DIR")).join("../data/rust_answers");
    let (mut cases, mut bad) = (0, 0);
    println!("{:<50} {:>7} {:>7} {:>9} {:>7}", "operation", "stored", "random", "answered", "differ");
    let all = operations().into_iter().map(|operation| (operation, true)).chain(added().into_iter().map(|operation| (operation, false)));
    for (operation, of_source) in all {
        let Some(side) = ours(&operation.name) else {
            println!("{:<50} not in the library", operation.name);
            bad += 1;
            continue;
        };
        let (kept, mut wrong) = if of_source {
            runs::stored(&operation, &fs::read_to_string(stored.join(format!("{}.txt", operation.name)))?, &side)
        } else {
            let found = runs::both(&operation, operation.cases().into_iter(), &side);
            (found.cases, found.wrong)
        };
        let found = runs::random(&operation, Random::far(!operation.seed()), count.div_ceil(cost(&operation.name)), &side);
        wrong.extend(found.wrong);
        println!("{:<50} {kept:>7} {:>7} {:>9} {:>7}", operation.name, found.cases, found.answered, wrong.len());
        // The shortest say most.
        wrong.sort_by_key(String::len);
        wrong.iter().take(3).for_each(|line| println!("{line}"));
        (cases, bad) = (cases + kept + found.cases, bad + wrong.len());
    }
    println!("{cases} cases, {bad} differ");
    process::exit(if bad == 0 { 0 } else { 1 })
}

/// A table for README.md.
fn list_patches() {
    println!("| file | what | why |\n|---|---|---|");
    for patch in patches::PATCHES {
        let name = patches::FILES.iter().find(|(file, _)| *file == patch.file).unwrap().1;
        let line = |text: &str| text.trim().lines().map(str::trim).collect::<Vec<_>>().join(" ⏎ ");
        let what = match patch.edit {
            patches::Edit::Line(old, "") => format!("without `{}`", line(old)),
            patches::Edit::Line(old, new) => format!("`{}` becomes `{}`", line(old), line(new)),
            patches::Edit::Cut(from, _) => format!("without `{}` and its body", line(from).trim_end_matches(" {")),
            patches::Edit::Rest(from) => format!("without `{}` and all after it", line(from)),
        };
        println!("| {name} | {what} | {} |", patch.why);
    }
}
