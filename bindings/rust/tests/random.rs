//! The crate draws new random octets for each key and each object.

mod common;

use common::*;
use lakhdzeva::*;
use std::collections::HashSet;

#[test]
fn no_two_keys_are_equal() {
    for template in [
        &br#"{"alg":"HS256"}"#[..],
        br#"{"bytes":65}"#,
        br#"{"bytes":4096}"#,
    ] {
        let keys: HashSet<_> = (0..100).map(|_| generate(template).unwrap()).collect();
        assert_eq!(keys.len(), 100);
    }
}

#[test]
fn no_two_objects_are_equal() {
    let objects: HashSet<_> = (0..100)
        .map(|_| encrypt(RFC7516_KEY, b"{}", Form::Compact, b"secret").unwrap())
        .collect();
    assert_eq!(objects.len(), 100);
}

#[test]
fn each_recipient_has_its_own_salt() {
    let keys = copies(&key_of('A', 2), 64);
    let template = br#"{"protected":{"alg":"PBES2-HS256+A128KW","p2c":1000}}"#;
    let object = encrypt(keys.as_bytes(), template, Form::Json, b"secret").unwrap();
    let salts: HashSet<_> = object
        .split(r#""p2s":""#)
        .skip(1)
        .map(|rest| rest.split('"').next().unwrap())
        .collect();
    assert_eq!(salts.len(), 64);
}
