//! The files of the reference: none uses one that, directly or not, uses it; the methods of a type stand
//! in its own file, so that each use is seen; and no file is long.

use std::collections::{BTreeMap, BTreeSet};
use std::fs;
use std::path::{Path, PathBuf};

/// The most lines of a file.
const LONGEST: usize = 500;

/// A module by its path: src/table/layout.rs is table, layout.
type Module = Vec<String>;

/// The modules that have a file, each with its text.
type Files = BTreeMap<Module, String>;

fn module(path: &str) -> Module {
    path.split('/').map(str::to_string).collect()
}

/// The sources below a folder of the reference.
fn sources(folder: &str) -> Vec<PathBuf> {
    let mut found = Vec::new();
    let mut folders = vec![Path::new(env!("CARGO_MANIFEST_DIR")).join(folder)];
    while let Some(folder) = folders.pop() {
        for entry in fs::read_dir(folder).unwrap() {
            let path = entry.unwrap().path();
            match path.is_dir() {
                true => folders.push(path),
                false => found.push(path),
            }
        }
    }
    found
}

/// The modules of the library but its root, which only names them.
fn files() -> Files {
    let root = Path::new(env!("CARGO_MANIFEST_DIR")).join("src");
    let mut files = Files::new();
    for path in sources("src") {
        let name = path.strip_prefix(&root).unwrap().with_extension("");
        files.insert(module(name.to_str().unwrap()), fs::read_to_string(&path).unwrap());
    }
    files.remove(&module("lib"));
    files
}

fn is_of_name(letter: char) -> bool {
    letter.is_alphanumeric() || letter == '_'
}

fn is_name(token: &str) -> bool {
    token.starts_with(is_of_name)
}

/// The names and marks of a text, without its comments. `::` is one mark.
fn tokens(text: &str) -> Vec<String> {
    let mut tokens = Vec::new();
    for line in text.lines() {
        let mut rest = line.split("//").next().unwrap_or_default().trim_start();
        while let Some(letter) = rest.chars().next() {
            let length = match rest.find(|letter| !is_of_name(letter)) {
                _ if rest.starts_with("::") => 2,
                Some(0) => letter.len_utf8(),
                Some(length) => length,
                None => rest.len(),
            };
            tokens.push(rest[..length].to_string());
            rest = rest[length..].trim_start();
        }
    }
    tokens
}

/// Reads the path that tokens begin with, behind the names before it; of those in braces each. Gives the
/// tokens that follow.
fn path<'a>(before: &[String], tokens: &'a [String], found: &mut Vec<Module>) -> &'a [String] {
    match tokens {
        [name, mark, rest @ ..] if is_name(name) && mark == "::" => {
            path(&[before, std::slice::from_ref(name)].concat(), rest, found)
        }
        [name, rest @ ..] if is_name(name) => {
            found.push([before, std::slice::from_ref(name)].concat());
            rest
        }
        [open, inside @ ..] if open == "{" => {
            let mut rest = inside;
            while rest.first().map_or(false, |token| token != "}") {
                rest = path(before, rest, found);
            }
            rest.get(1..).unwrap_or(rest)
        }
        [_, rest @ ..] => rest,
        [] => tokens,
    }
}

/// The paths of a text, of `use` and of any other place.
fn paths(text: &str) -> Vec<Module> {
    let tokens = tokens(text);
    let mut found = Vec::new();
    let mut rest = &tokens[..];
    while let Some(token) = rest.first() {
        rest = if is_name(token) { path(&[], rest, &mut found) } else { &rest[1..] };
    }
    found
}

/// The file that a path names from within a module, if it is another one of the library.
fn file_of(files: &Files, own: &Module, path: &[String]) -> Option<Module> {
    let (mut from, mut names) = (own.clone(), path);
    while let [first, rest @ ..] = names {
        match first.as_str() {
            "crate" => from.clear(),
            "super" => drop(from.pop()),
            "self" => {}
            _ => break,
        }
        names = rest;
    }
    from.extend(names.iter().cloned());
    while !from.is_empty() && !files.contains_key(&from) {
        from.pop();
    }
    Some(from).filter(|file| file != own && !file.is_empty())
}

/// The files of which each uses, directly or not, one that uses it; and those between two of them.
fn in_circles(files: &Files) -> Vec<String> {
    let mut left: BTreeMap<&Module, BTreeSet<Module>> = BTreeMap::new();
    for (own, text) in files {
        let uses = paths(text).iter().filter_map(|path| file_of(files, own, path)).collect();
        left.insert(own, uses);
    }
    loop {
        let count = left.len();
        let users: BTreeSet<Module> = left.keys().copied().cloned().collect();
        let used: BTreeSet<Module> = left.values().flatten().cloned().collect();
        left.retain(|own, uses| used.contains(*own) && !uses.is_disjoint(&users));
        if left.len() == count {
            return left.keys().map(|own| own.join("/")).collect();
        }
    }
}

/// The name of the type whose `impl` begins with a line.
fn type_of_impl(line: &str) -> String {
    // Behind `impl`, with its parameters, or behind `for`; the type's own parameters follow.
    let behind = match line.split_once(" for ") {
        Some((_, behind)) => behind,
        None if line.starts_with("impl<") => line.split_once("> ").map_or(line, |(_, it)| it),
        None => line.trim_start_matches("impl "),
    };
    behind.split(|letter| !is_of_name(letter)).next().unwrap_or_default().to_string()
}

/// The types of a file that have methods there, and are defined elsewhere.
fn foreign_methods(text: &str) -> Vec<String> {
    let defines = |name: &String| {
        ["struct", "enum", "type"].iter().any(|kind| {
            let definition = format!("{kind} {name}");
            let ends = |rest: &str| !rest.starts_with(is_of_name);
            text.match_indices(&definition).any(|(at, _)| ends(&text[at + definition.len()..]))
        })
    };
    let headers = text.lines().filter(|line| line.starts_with("impl"));
    headers.map(type_of_impl).filter(|name| !defines(name)).collect()
}

#[test]
fn no_file_uses_one_that_uses_it() {
    assert_eq!(in_circles(&files()), Vec::<String>::new());
}

#[test]
fn methods_stand_with_their_type() {
    for (own, text) in files() {
        assert_eq!(foreign_methods(&text), Vec::<String>::new(), "{}", own.join("/"));
    }
}

#[test]
fn no_file_is_long() {
    for path in sources("src").into_iter().chain(sources("tests")) {
        let lines = fs::read_to_string(&path).unwrap().lines().count();
        assert!(lines <= LONGEST, "{} has {lines} lines", path.display());
    }
}

#[test]
fn a_circle_is_found() {
    let with = |texts: &[(&str, &str)]| {
        let files: Files =
            texts.iter().map(|(own, text)| (module(own), text.to_string())).collect();
        in_circles(&files)
    };
    let line =
        [("a", "use crate::b::X;"), ("b", "use std::fmt; // use crate::a;"), ("c", "mod d;")];
    assert_eq!(with(&line), Vec::<String>::new());
    assert_eq!(
        with(&[("a", "use crate::{self, c::{d, e}, b::X};"), ("b", "crate::a::f()")]),
        ["a", "b"]
    );
    assert_eq!(with(&[("a", "mod b; b::f()"), ("a/b", "use super::X;")]), ["a", "a/b"]);
    assert_eq!(
        with(&[("a/b", "use super::c::X;"), ("a/c", "use super::{d,\n b};")]),
        ["a/b", "a/c"]
    );
    let three = [("a", "use crate::b;"), ("b", "use crate::c;"), ("c", "use crate::a::X;")];
    assert_eq!(with(&three), ["a", "b", "c"]);
}

#[test]
fn foreign_methods_are_found() {
    let text =
        "struct Own;\nimpl Own {}\nimpl<T: Copy> From<T> for Own {}\nimpl<T: Copy> Other<T> {}\n";
    assert_eq!(foreign_methods(text), ["Other"]);
}
