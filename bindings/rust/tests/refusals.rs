//! Each refusal that safe calls can provoke. Usage, Read and Write never come, Random needs a system without random octets, and Memory needs a
//! failed allocation.

mod common;

use common::*;
use lakhdzeva::Refusal::{
    Base64, Header, Json, Key, KeyDoesNotFit, Limit, Memory, NoAlgorithm, NotCompact, NotOpened,
    Number, Random, Read, Unsupported, Usage, Write,
};
use lakhdzeva::{decrypt, encrypt, format_encrypted, format_signed, generate, sign};
use lakhdzeva::{thumbprints, verify, Form, Hash, Refusal, Signers};

fn long_key() -> Vec<u8> {
    key_of('A', 86).into_bytes()
}

#[test]
fn base64() {
    let object = b"eyJhbGciOiJIUzI1NiJ9.aGk.A=";
    assert_eq!(verify(&long_key(), object, Signers::One), Err(Base64));
    assert_eq!(format_signed(object, None, Form::Json), Err(Base64));
    let template = br#"{"aad":"!"}"#;
    let key = key_of('A', 22);
    assert_eq!(
        encrypt(key.as_bytes(), template, Form::Json, b""),
        Err(Base64)
    );
}

#[test]
fn json() {
    assert_eq!(generate(b""), Err(Json));
    assert_eq!(generate(b"{"), Err(Json));
    assert_eq!(thumbprints(b"no JSON", Hash::Sha256), Err(Json));
    assert_eq!(thumbprints(b"\"\xff\"", Hash::Sha256), Err(Json));
    assert_eq!(sign(&long_key(), b"", Form::Json, b""), Err(Json));
    assert_eq!(decrypt(&long_key(), b"{", None), Err(Json));
}

#[test]
fn number() {
    assert_eq!(generate(br#"{"alg":"HS256","n":1.5}"#), Err(Number));
    let key = br#"{"kty":"oct","k":"AA","n":-0}"#;
    assert_eq!(thumbprints(key, Hash::Sha256), Err(Number));
}

#[test]
fn key() {
    let other = br#"{"kty":"RSA","n":"AA","e":"AQAB"}"#;
    assert_eq!(thumbprints(other, Hash::Sha256), Err(Key));
    assert_eq!(thumbprints(b"[]", Hash::Sha256), Err(Key));
    assert_eq!(thumbprints(br#"{"keys":[]}"#, Hash::Sha256), Err(Key));
    assert_eq!(generate(br#"{"alg":"HS256","k":"AA"}"#), Err(Key));
    assert_eq!(verify(b"{}", RFC7515_A1, Signers::One), Err(Key));
}

#[test]
fn form() {
    assert_eq!(verify(&long_key(), b"", Signers::One), Err(Refusal::Form));
    assert_eq!(
        verify(&long_key(), b"a.b", Signers::One),
        Err(Refusal::Form)
    );
    assert_eq!(decrypt(&long_key(), RFC7515_A1, None), Err(Refusal::Form));
    let object = br#"{"payload":"","signature":"","signatures":[]}"#;
    assert_eq!(format_signed(object, None, Form::Json), Err(Refusal::Form));
    assert_eq!(
        sign(&long_key(), b"[]", Form::Json, b""),
        Err(Refusal::Form)
    );
}

#[test]
fn header() {
    assert_eq!(verify(&long_key(), b"e30.aGk.", Signers::One), Err(Header));
    let template = br#"{"protected":{"a":1},"header":{"a":2}}"#;
    assert_eq!(sign(&long_key(), template, Form::Json, b""), Err(Header));
}

#[test]
fn unsupported() {
    // {"alg":"RS256"}
    let object = b"eyJhbGciOiJSUzI1NiJ9.aGk.AAAA";
    assert_eq!(verify(&long_key(), object, Signers::One), Err(Unsupported));
    assert_eq!(generate(br#"{"alg":"RS256"}"#), Err(Unsupported));
    let template = br#"{"protected":{"zip":"DEF"}}"#;
    let key = key_of('A', 22);
    assert_eq!(
        encrypt(key.as_bytes(), template, Form::Json, b""),
        Err(Unsupported)
    );
}

#[test]
fn no_algorithm() {
    assert_eq!(generate(b"{}"), Err(NoAlgorithm));
    let short = key_of('A', 2);
    assert_eq!(
        sign(short.as_bytes(), b"{}", Form::Json, b""),
        Err(NoAlgorithm)
    );
    assert_eq!(
        encrypt(short.as_bytes(), b"{}", Form::Json, b""),
        Err(NoAlgorithm)
    );
}

#[test]
fn key_does_not_fit() {
    let short = key_of('A', 2);
    assert_eq!(
        verify(short.as_bytes(), RFC7515_A1, Signers::One),
        Err(KeyDoesNotFit)
    );
    assert_eq!(
        decrypt(short.as_bytes(), RFC7516_A3, None),
        Err(KeyDoesNotFit)
    );
    assert_eq!(
        generate(br#"{"alg":"HS256","bytes":31}"#),
        Err(KeyDoesNotFit)
    );
}

#[test]
fn limit() {
    let keys = copies(&key_of('A', 86), 65);
    assert_eq!(thumbprints(keys.as_bytes(), Hash::Sha256), Err(Limit));
    assert_eq!(sign(keys.as_bytes(), b"{}", Form::Json, b""), Err(Limit));
    assert_eq!(generate(br#"{"bytes":4097}"#), Err(Limit));
    let template = br#"{"protected":{"alg":"PBES2-HS256+A128KW","p2c":999}}"#;
    assert_eq!(encrypt(&long_key(), template, Form::Json, b""), Err(Limit));
}

#[test]
fn not_compact() {
    let keys = copies(&key_of('A', 86), 2);
    assert_eq!(
        sign(keys.as_bytes(), b"{}", Form::Compact, b""),
        Err(NotCompact)
    );
    assert_eq!(
        format_encrypted(RFC7516_A5, None, Form::Compact),
        Err(NotCompact)
    );
}

#[test]
fn not_opened() {
    let other = key_of('A', 86);
    assert_eq!(
        verify(other.as_bytes(), RFC7515_A1, Signers::One),
        Err(NotOpened)
    );
    let other = key_of('A', 22);
    assert_eq!(decrypt(other.as_bytes(), RFC7516_A3, None), Err(NotOpened));
}

#[test]
fn each_changed_character_is_refused() {
    assert!(verify(RFC7515_KEY, RFC7515_A1, Signers::One).is_ok());
    assert!(decrypt(RFC7516_KEY, RFC7516_A3, None).is_ok());
    for at in 0..RFC7515_A1.len() {
        let mut object = RFC7515_A1.to_vec();
        object[at] = if object[at] == b'A' { b'B' } else { b'A' };
        assert!(verify(RFC7515_KEY, &object, Signers::One).is_err(), "{at}");
    }
    for at in 0..RFC7516_A3.len() {
        let mut object = RFC7516_A3.to_vec();
        object[at] = if object[at] == b'A' { b'B' } else { b'A' };
        assert!(decrypt(RFC7516_KEY, &object, None).is_err(), "{at}");
    }
}

#[test]
fn a_refusal_is_written_as_its_number_and_name() {
    let refusals = [
        (Usage, "1 Usage"),
        (Read, "2 Read"),
        (Write, "3 Write"),
        (Memory, "4 Memory"),
        (Random, "5 Random"),
        (Base64, "6 Base64"),
        (Json, "7 Json"),
        (Number, "8 Number"),
        (Key, "9 Key"),
        (Refusal::Form, "10 Form"),
        (Header, "11 Header"),
        (Unsupported, "12 Unsupported"),
        (NoAlgorithm, "13 NoAlgorithm"),
        (KeyDoesNotFit, "14 KeyDoesNotFit"),
        (Limit, "15 Limit"),
        (NotCompact, "16 NotCompact"),
        (NotOpened, "17 NotOpened"),
    ];
    for (place, (refusal, text)) in refusals.into_iter().enumerate() {
        assert_eq!(refusal.number() as usize, place + 1);
        assert_eq!(refusal.to_string(), text);
        assert_eq!(format!("{} {}", refusal.number(), refusal.name()), text);
    }
    assert_eq!(Refusal::Unknown(18).to_string(), "18 Unknown");
    let fault: Box<dyn std::error::Error> = Box::new(Refusal::NotOpened);
    assert_eq!(fault.to_string(), "17 NotOpened");
}
