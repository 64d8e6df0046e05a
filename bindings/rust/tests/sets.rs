//! Sets of keys.

mod common;

use common::*;
use lakhdzeva::*;

/// Two keys that sign, and one that encrypts.
fn one() -> String {
    key_of('A', 86)
}

fn other() -> String {
    key_of('A', 64)
}

fn rsa() -> String {
    r#"{"e":"AQAB","kty":"RSA","n":"AA"}"#.to_string()
}

#[test]
fn each_key_of_a_set_signs() {
    let set = set_of(&[one(), other()]);
    let object = sign(set.as_bytes(), b"{}", Form::Json, b"hello").unwrap();
    for key in [one(), other(), set] {
        for signers in [Signers::One, Signers::All] {
            let payload = verify(key.as_bytes(), object.as_bytes(), signers).unwrap();
            assert_eq!(payload, b"hello");
        }
    }
}

#[test]
fn all_keys_must_have_signed_if_that_is_asked() {
    let object = sign(one().as_bytes(), b"{}", Form::Json, b"hello").unwrap();
    let set = set_of(&[other(), one()]);
    assert_eq!(
        verify(set.as_bytes(), object.as_bytes(), Signers::One).unwrap(),
        b"hello"
    );
    assert_eq!(
        verify(set.as_bytes(), object.as_bytes(), Signers::All),
        Err(Refusal::NotOpened)
    );
    let object = sign_detached(one().as_bytes(), b"{}", Form::Json, b"hello").unwrap();
    assert_eq!(
        verify_detached(set.as_bytes(), object.as_bytes(), Signers::One, b"hello"),
        Ok(())
    );
    assert_eq!(
        verify_detached(set.as_bytes(), object.as_bytes(), Signers::All, b"hello"),
        Err(Refusal::NotOpened)
    );
}

#[test]
fn an_invalid_key_is_ignored_to_verify_and_refused_to_sign() {
    let object = sign(one().as_bytes(), b"{}", Form::Compact, b"hello").unwrap();
    let set = set_of(&[rsa(), one()]);
    assert_eq!(
        verify(set.as_bytes(), object.as_bytes(), Signers::All).unwrap(),
        b"hello"
    );
    assert_eq!(
        sign(set.as_bytes(), b"{}", Form::Json, b"hello"),
        Err(Refusal::Key)
    );
    assert_eq!(
        encrypt(set.as_bytes(), b"{}", Form::Json, b"hello"),
        Err(Refusal::Key)
    );
    let lines = thumbprints(set.as_bytes(), Hash::Sha256).unwrap();
    assert_eq!(lines, thumbprints(one().as_bytes(), Hash::Sha256).unwrap());
}

#[test]
fn each_key_of_a_set_decrypts() {
    let keys = [key_of('A', 22), key_of('A', 43), key_of('A', 32)];
    let object = encrypt(set_of(&keys).as_bytes(), b"{}", Form::Json, b"secret").unwrap();
    for key in &keys {
        assert_eq!(
            decrypt(key.as_bytes(), object.as_bytes(), None).unwrap(),
            b"secret"
        );
    }
    let stranger = r#"{"k":"AAAAAAAAAAAAAAAAAAAAAQ","kty":"oct"}"#;
    assert_eq!(
        decrypt(stranger.as_bytes(), object.as_bytes(), None),
        Err(Refusal::NotOpened)
    );
}

#[test]
fn a_set_has_its_thumbprints_in_order() {
    let lines = thumbprints(set_of(&[one(), other()]).as_bytes(), Hash::Sha224).unwrap();
    let each = [one(), other()].map(|key| thumbprints(key.as_bytes(), Hash::Sha224).unwrap());
    assert_ne!(each[0], each[1]);
    assert_eq!(lines, each.join("\n"));
}
