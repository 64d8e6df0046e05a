//! The crate agrees with the header of the library and with its version. A crate without the repository around it skips the comparison.

use lakhdzeva::Refusal::{self, *};
use std::fs;
use std::path::{Path, PathBuf};

fn near(name: &str) -> PathBuf {
    Path::new(env!("CARGO_MANIFEST_DIR")).join(name)
}

/// A file of the repository, or `None` if the crate is alone.
fn of_repository(name: &str) -> Option<String> {
    let path = near("../..").join(name);
    if near("../../VERSION").is_file() {
        Some(fs::read_to_string(&path).unwrap_or_else(|fault| panic!("{path:?}: {fault}")))
    } else {
        None
    }
}

/// The declaration of a function, without white space: its name and the names of its arguments.
fn declaration(text: &str, argument: fn(&str) -> &str) -> String {
    let (name, arguments) = text.split_once('(').unwrap();
    let arguments = arguments.split(',').map(str::trim);
    let arguments = arguments.filter(|text| !text.is_empty()).map(argument);
    format!("{name}({})", arguments.collect::<Vec<_>>().join(","))
}

#[test]
fn the_functions_are_those_of_the_header() {
    let Some(header) = of_repository("bindings/c/lakhdzeva.h") else {
        return;
    };
    // scripts/bindings compares their types.
    let header = header.split_whitespace().collect::<Vec<_>>().join(" ");
    let header = header
        .replace(" *lakhdzeva_", " * lakhdzeva_")
        .replace("(void)", "()");
    let in_c = header.split(" lakhdzeva_").skip(1).filter_map(|rest| {
        let (text, _) = rest.split_once(") LAKHDZEVA_")?;
        Some(declaration(text, |it| {
            &it[it.rfind([' ', '*']).unwrap() + 1..]
        }))
    });
    let in_c: Vec<String> = in_c.collect();
    let calls = fs::read_to_string(near("src/calls.rs")).unwrap();
    let in_rust = calls.split("    fn lakhdzeva_").skip(1).map(|rest| {
        let (text, _) = rest.split_once(") -> ").unwrap();
        declaration(text, |it| it.split_once(':').unwrap().0)
    });
    let in_rust: Vec<String> = in_rust.collect();
    assert!(in_rust.len() > 11);
    for text in in_rust {
        assert!(in_c.iter().any(|it| it.ends_with(&text)), "{text}");
    }
}

#[test]
fn the_refusals_are_those_of_the_header() {
    let Some(header) = of_repository("bindings/c/lakhdzeva.h") else {
        return;
    };
    let all: [Refusal; 17] = [
        Usage,
        Read,
        Write,
        Memory,
        Random,
        Base64,
        Json,
        Number,
        Key,
        Form,
        Header,
        Unsupported,
        NoAlgorithm,
        KeyDoesNotFit,
        Limit,
        NotCompact,
        NotOpened,
    ];
    let (_, rest) = header.split_once("enum lakhdzeva_status {").unwrap();
    let (statuses, _) = rest.split_once("};").unwrap();
    let statuses: Vec<(String, u32)> = statuses
        .split("LAKHDZEVA_")
        .filter_map(|text| text.split_once(" = "))
        .map(|(name, rest)| {
            let number: String = rest.chars().take_while(char::is_ascii_digit).collect();
            (name.to_string(), number.parse().unwrap())
        })
        .collect();
    let mut expected = vec![("OK".to_string(), 0)];
    expected.extend(all.map(|refusal| (in_capitals(refusal.name()), refusal.number())));
    assert_eq!(statuses, expected);
}

/// The name of a refusal as the header writes it, such as `NOT_OPENED`.
fn in_capitals(name: &str) -> String {
    let mut text = String::new();
    for (at, letter) in name.char_indices() {
        if at > 0 && letter.is_ascii_uppercase() {
            text.push('_');
        }
        text.push(letter.to_ascii_uppercase());
    }
    text
}

#[test]
fn the_version_is_that_of_the_repository() {
    let Some(version) = of_repository("VERSION") else {
        return;
    };
    assert_eq!(
        version.split_whitespace().next(),
        Some(env!("CARGO_PKG_VERSION"))
    );
}
