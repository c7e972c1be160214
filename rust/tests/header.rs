//! The header of the C interface: it says what src/ffi.rs says, and a program in C over it meets document 01's figures.

use std::path::Path;
use std::process::Command;
use std::{env, fs};

fn read(path: &str) -> String { fs::read_to_string(Path::new(env!("CARGO_MANIFEST_DIR")).join(path)).unwrap() }

/// Each function as `name(parameter: type, ..)`, in the words of C.
fn functions(text: &str, start: &str, parameter: impl Fn(&str) -> Option<String>) -> Vec<String> {
    let found = text.split(start).skip(1).filter_map(|rest| {
        let (name, rest) = rest.split_once('(')?;
        let (parameters, _) = rest.split_once(");")?;
        Some(format!("{name}({})", parameters.split(',').filter_map(|p| parameter(p.trim())).collect::<Vec<_>>().join(", ")))
    });
    found.collect()
}

#[test]
fn the_header_says_what_the_declarations_say() {
    let header = functions(&read("../include/sugamdely.h"), "uint8_t sugamdely_", |p| Some(p.to_string()));
    let c = |name: &str| match name {
        "f64" => "double",
        "i64" => "int64_t",
        "u64" => "uint64_t",
        "usize" => "size_t",
        other => panic!("{other}"),
    };
    let ffi = read("src/ffi.rs");
    let ours = functions(ffi.split_once("functions! {").unwrap().1, "    fn ", |p| {
        let (name, kind) = p.split_once(": ")?;
        let list = |kind: &str, read: &str| format!("{read}{} *{name}, size_t {name}_len", c(kind.trim_end_matches(']')));
        Some(if let Some(kind) = kind.strip_prefix("&mut [") {
            list(kind, "")
        } else if let Some(kind) = kind.strip_prefix("&[") {
            list(kind, "const ")
        } else {
            format!("{} {name}", c(kind))
        })
    });
    assert_eq!(header.len(), 92);
    assert_eq!(header, ours);
}

/// What a program in C over the header and the archives writes, and whether it ends well.
fn run(source: &str, words: &[&str]) -> (bool, String) {
    let program = Path::new(env!("CARGO_TARGET_TMPDIR")).join(Path::new(source).file_stem().unwrap());
    let built = Command::new(env::var("CC").unwrap_or("cc".to_string()))
        .current_dir(env!("CARGO_MANIFEST_DIR"))
        .args(["-Wall", "-Wextra", "-Werror", "-I../include", "-o"])
        .arg(&program)
        .args(words)
        .arg(source)
        .args(env::split_paths(env!("SUGAMDELY_ARCHIVES")))
        .arg("-lm")
        .status()
        .unwrap();
    assert!(built.success());
    let run = Command::new(program).output().unwrap();
    (run.status.success(), String::from_utf8(run.stdout).unwrap())
}

#[test]
fn a_program_in_c_meets_the_figures() {
    let (met, said) = run("tests/figures.c", &["-std=c11"]);
    assert!(met, "{said}");
}

#[test]
fn no_call_takes_more_stack_than_the_header_says() {
    let (met, said) = run("../bench/stack.c", &["-O2"]);
    assert!(met, "{said}");
}

/// What the header says of other float environments.
#[test]
fn floats_follow_the_callers_environment() {
    let (_, said) = run("../bench/environment.c", &["-frounding-math"]);
    let line = |name: &str| said.lines().find(|line| line.starts_with(name)).unwrap();
    assert!(line("as a program starts").contains("1e-310/1e-310: 0x1p+0  2^1023 times 2: refused 10  1 + 2^-53: 0x1p+0"), "{said}");
    assert!(line("results flushed").contains("1e-310/1e-310: 0x0p+0"), "{said}");
    assert!(line("both flags").contains("1e-310/1e-310: refused 7") && line("both flags").ends_with("p-1022"), "{said}");
    assert!(line("rounding up").contains("1 + 2^-53: 0x1.0000000000001p+0"), "{said}");
    assert!(line("rounding to zero").contains("2^1023 times 2: 0x1.fffffffffffffp+1023"), "{said}");
}

/// A program that is linked with -ffast-math has both flags set when it starts.
#[test]
fn fast_math_changes_what_is_answered() {
    let (_, said) = run("tests/fast_math.c", &["-ffast-math"]);
    assert_eq!(said, "1e-310/1e-310: refused 7\n");
}
