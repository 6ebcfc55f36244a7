//! include/daggeryuzu.h and src/sys.rs declare what crate host_c exports: the same
//! functions, with the same parameters in the same order. The header's numbers are the
//! wrapper's.

use std::collections::BTreeMap;
use std::fs;
use std::path::{Path, PathBuf};

use daggeryuzu::sys;

type Functions = BTreeMap<String, Vec<String>>;

fn root() -> PathBuf {
    Path::new(env!("CARGO_MANIFEST_DIR")).join("..")
}

/// Names and C types of `#[unsafe(no_mangle)] pub extern "C"` functions in crates/host_c/src.
fn exported() -> Functions {
    let mut found = Functions::new();
    for file in fs::read_dir(root().join("crates/host_c/src")).unwrap() {
        let text = fs::read_to_string(file.unwrap().path()).unwrap();
        for rest in text.split("pub extern \"C\" fn ").skip(1) {
            let (name, rest) = rest.split_once('(').unwrap();
            let (params, rest) = rest.split_once(')').unwrap();
            let answer = rest.trim_start().strip_prefix("->").unwrap_or("()");
            let answer = answer.split_whitespace().next().unwrap();
            let mut types = vec![scalar(answer).to_string()];
            for param in params.split(',').map(str::trim).filter(|p| !p.is_empty()) {
                let (_, ty) = param.split_once(':').unwrap();
                types.extend(c_types(ty.trim()));
            }
            found.insert(name.to_string(), types);
        }
    }
    found
}

fn scalar(ty: &str) -> &str {
    match ty {
        "u8" => "uint8_t",
        "u32" => "uint32_t",
        "u64" => "uint64_t",
        "usize" => "size_t",
        "f64" => "double",
        other => panic!("no C type for {other}"),
    }
}

/// A slice crosses as a pointer and a length.
fn c_types(ty: &str) -> Vec<String> {
    let slice = |rest: &str, constant: &str| {
        let element = rest.trim_end_matches(']');
        vec![format!("{constant}{} *", scalar(element)), "size_t".into()]
    };
    if let Some(rest) = ty.strip_prefix("&mut [") {
        slice(rest, "")
    } else if let Some(rest) = ty.strip_prefix("&[") {
        slice(rest, "const ")
    } else {
        vec![scalar(ty).into()]
    }
}

/// The header without its comments, which speak of functions too.
fn header() -> String {
    let text = fs::read_to_string(root().join("include/daggeryuzu.h")).unwrap();
    let (first, rest) = text.split_once("/*").unwrap();
    let code = rest
        .split("/*")
        .map(|part| part.split_once("*/").unwrap().1);
    code.fold(first.to_string(), |all, part| all + part)
}

/// Names and types of the header's declarations.
fn declared() -> Functions {
    let mut found = Functions::new();
    for declaration in header().split(';') {
        let Some(at) = declaration.find("daggeryuzu_") else {
            continue;
        };
        let Some((head, params)) = declaration[at..].split_once('(') else {
            continue;
        };
        let Some(answer) = declaration[..at].split_whitespace().last() else {
            continue;
        };
        let mut types = vec![answer.to_string()];
        for param in params.trim_end_matches(')').split(',') {
            let words: Vec<&str> = param.split_whitespace().collect();
            let (name, ty) = words.split_last().unwrap();
            let star = if name.starts_with('*') { " *" } else { "" };
            types.push(format!("{}{star}", ty.join(" ")));
        }
        found.insert(head.to_string(), types);
    }
    found
}

/// Names and C types of the foreign functions in src/sys.rs.
fn foreign() -> Functions {
    let text = fs::read_to_string(root().join("host-rs/src/sys.rs")).unwrap();
    let (_, text) = text.split_once("extern \"C\" {").unwrap();
    let (text, _) = text.split_once("\n}").unwrap();
    let mut found = Functions::new();
    for declaration in text.split(';').filter(|d| d.contains("fn ")) {
        let (_, declaration) = declaration.split_once("fn ").unwrap();
        let (name, rest) = declaration.split_once('(').unwrap();
        let (params, answer) = rest.split_once(')').unwrap();
        let answer = answer.trim_start().strip_prefix("->").unwrap_or("()");
        let mut types = vec![scalar(answer.trim()).to_string()];
        for param in params.split(',').map(str::trim).filter(|p| !p.is_empty()) {
            let (_, ty) = param.split_once(':').unwrap();
            types.push(pointer(ty.trim()));
        }
        found.insert(name.to_string(), types);
    }
    found
}

/// The C type of a number or a raw pointer.
fn pointer(ty: &str) -> String {
    if let Some(element) = ty.strip_prefix("*mut ") {
        format!("{} *", scalar(element))
    } else if let Some(element) = ty.strip_prefix("*const ") {
        format!("const {} *", scalar(element))
    } else {
        scalar(ty).into()
    }
}

#[test]
fn the_wrapper_declares_what_the_header_does() {
    assert_eq!(foreign(), declared());
}

#[test]
fn the_header_declares_what_is_exported() {
    let exported = exported();
    assert!(
        exported.len() >= 16,
        "only {} functions found",
        exported.len()
    );
    assert_eq!(declared(), exported);
}

/// The numbers that the header defines.
fn defined() -> BTreeMap<String, u64> {
    let text = header();
    let lines = text
        .lines()
        .filter_map(|l| l.strip_prefix("#define DAGGERYUZU_"));
    let numbers = lines.filter_map(|l| l.split_once(' '));
    numbers
        .map(|(name, n)| (name.to_string(), n.trim().parse().unwrap()))
        .collect()
}

#[test]
fn the_wrapper_has_the_headers_numbers() {
    let ours = [
        ("STATE", sys::STATE as u64),
        ("ANSWER", sys::ANSWER as u64),
        ("PEAK_NONE", sys::PEAK_NONE),
        ("PEAK_ON_SAMPLE", sys::PEAK_ON_SAMPLE),
        ("PEAK_BETWEEN", sys::PEAK_BETWEEN),
    ];
    let ours = ours.map(|(name, n)| (name.to_string(), n));
    assert_eq!(defined(), BTreeMap::from(ours));
}
