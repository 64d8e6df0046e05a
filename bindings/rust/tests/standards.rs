//! Values of RFC 7515, RFC 7516 and RFC 7638.

mod common;

use common::*;
use lakhdzeva::{
    decrypt, format_encrypted, format_signed, sign, thumbprints, verify, Form, Hash, Signers,
};

#[test]
fn rfc7515_appendix_a1_verifies() {
    let payload = verify(RFC7515_KEY, RFC7515_A1, Signers::One).unwrap();
    assert_eq!(payload, RFC7515_PAYLOAD);
    let all = verify(RFC7515_KEY, RFC7515_A1, Signers::All).unwrap();
    assert_eq!(all, RFC7515_PAYLOAD);
}

#[test]
fn rfc7515_appendix_a1_verifies_in_json_form() {
    let json = format_signed(RFC7515_A1, None, Form::Json).unwrap();
    assert!(json.starts_with(r#"{"payload":"eyJpc3Mi"#));
    assert_eq!(
        verify(RFC7515_KEY, json.as_bytes(), Signers::One).unwrap(),
        RFC7515_PAYLOAD
    );
    let compact = format_signed(json.as_bytes(), None, Form::Compact).unwrap();
    assert_eq!(compact.as_bytes(), RFC7515_A1);
}

#[test]
fn a_signature_has_the_value_of_another_program() {
    // The signature was computed by Python's hmac, for the header {"alg":"HS256"}.
    let template = br#"{"protected":{"alg":"HS256"}}"#;
    let object = sign(RFC7515_KEY, template, Form::Compact, b"hello").unwrap();
    assert_eq!(
        object,
        "eyJhbGciOiJIUzI1NiJ9.aGVsbG8.pur8xtpo-CYwFPNiDHtqt37DXGhHwv8IXKkOQymMa-Y"
    );
}

#[test]
fn rfc7516_appendix_a3_decrypts() {
    let plaintext = decrypt(RFC7516_KEY, RFC7516_A3, None).unwrap();
    assert_eq!(plaintext, RFC7516_PLAINTEXT);
}

#[test]
fn rfc7516_appendix_a5_decrypts() {
    let plaintext = decrypt(RFC7516_KEY, RFC7516_A5, None).unwrap();
    assert_eq!(plaintext, RFC7516_PLAINTEXT);
}

#[test]
fn rfc7516_appendix_a3_keeps_its_text_in_both_forms() {
    let json = format_encrypted(RFC7516_A3, None, Form::Json).unwrap();
    assert_eq!(
        decrypt(RFC7516_KEY, json.as_bytes(), None).unwrap(),
        RFC7516_PLAINTEXT
    );
    let compact = format_encrypted(json.as_bytes(), None, Form::Compact).unwrap();
    assert_eq!(compact.as_bytes(), RFC7516_A3);
}

#[test]
fn a_key_has_the_thumbprints_of_another_program() {
    // These were computed by Python's hashlib.
    let rows = [
        (Hash::Sha224, "GwuApa_56OAo-dtcibLdSFtTMXS2OwfODBTa1w"),
        (Hash::Sha256, "k1JnWRfC-5zzmL72vXIuBgTLfVROXBakS4OmGcrMCoc"),
        (Hash::Sha384, "RWKwvfhC_aZql0lGhwOTuOYcIF3-SDe_AOe9odLrXTHbzzwFpG1XErxx8oku0UCe"),
        (Hash::Sha512, "EdMfw87VZ3q_6wWykCQSEVMV_H6Nq0t7GWvcH4Mp0zn7Qaq2Myj2_DsTxeb4fT8H_ls19_bAfTH84bOg0vniFg"),
    ];
    for (hash, text) in rows {
        assert_eq!(thumbprints(RFC7516_KEY, hash).unwrap(), text);
    }
}
