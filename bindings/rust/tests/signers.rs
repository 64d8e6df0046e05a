//! Each of so many keys signed.

mod common;

use common::*;
use lakhdzeva::*;

/// The set of RFC7515_KEY and these keys.
fn set_with(keys: &[&str]) -> String {
    let first = std::str::from_utf8(RFC7515_KEY).unwrap();
    let mut all = vec![first.to_string()];
    all.extend(keys.iter().map(|key| key.to_string()));
    set_of(&all)
}

/// A key with this `k`.
fn key_with(k: &str) -> String {
    format!(r#"{{"kty":"oct","k":"{k}"}}"#)
}

/// What both functions answer: with the payload in the object, and with the payload apart from it.
fn both_answers(keys: &str, signers: usize, object: &[u8]) -> Result<(), Refusal> {
    let answer = verify_all(keys.as_bytes(), signers, object);
    let (apart, payload) = format_signed_detached(object, None, Form::Json).unwrap();
    let detached = verify_all_detached(keys.as_bytes(), signers, apart.as_bytes(), &payload);
    assert_eq!(answer.clone().map(|_| ()), detached);
    assert_eq!(payload, b"hello");
    answer.map(|verified| assert_eq!(verified, payload))
}

#[test]
fn each_key_made_a_signature() {
    let keys = set_with(&[OTHER_KEY]);
    assert_eq!(both_answers(&keys, 2, SIGNED_BY_BOTH), Ok(()));
    assert_eq!(both_answers(OTHER_KEY, 1, SIGNED_BY_BOTH), Ok(()));
    for object in [SIGNED_BY_ONE, SIGNED_BY_OTHER] {
        assert_eq!(both_answers(&keys, 2, object), Err(Refusal::NotOpened));
    }
    let three = set_with(&[OTHER_KEY, &key_of('A', 86)]);
    assert_eq!(
        both_answers(&three, 3, SIGNED_BY_BOTH),
        Err(Refusal::NotOpened)
    );
}

#[test]
fn another_number_of_keys_is_refused() {
    let keys = set_with(&[OTHER_KEY]);
    for signers in [0, 1, 3, 64, 65, usize::MAX / 2, usize::MAX] {
        assert_eq!(
            both_answers(&keys, signers, SIGNED_BY_BOTH),
            Err(Refusal::Key),
            "{signers}"
        );
    }
}

#[test]
fn a_bad_key_is_refused() {
    for bad in [
        r#"{"e":"AQAB","kty":"RSA","n":"AA"}"#,
        r#"{"kty":"oct","k":"AyM1Sys!"}"#,
    ] {
        let keys = set_with(&[bad]);
        assert!(verify(keys.as_bytes(), SIGNED_BY_ONE, Signers::All).is_ok());
        for signers in [1, 2] {
            assert_eq!(
                both_answers(&keys, signers, SIGNED_BY_ONE),
                Err(Refusal::Key)
            );
        }
    }
}

#[test]
fn keys_that_sign_alike_are_refused() {
    // 200 octets from 0 to 199, and their digests by SHA-256, SHA-384 and SHA-512, which Python's hashlib computed.
    let long = key_with("AAECAwQFBgcICQoLDA0ODxAREhMUFRYXGBkaGxwdHh8gISIjJCUmJygpKissLS4vMDEyMzQ1Njc4OTo7PD0-P0BBQkNERUZHSElKS0xNTk9QUVJTVFVWV1hZWltcXV5fYGFiY2RlZmdoaWprbG1ub3BxcnN0dXZ3eHl6e3x9fn-AgYKDhIWGh4iJiouMjY6PkJGSk5SVlpeYmZqbnJ2en6ChoqOkpaanqKmqq6ytrq-wsbKztLW2t7i5uru8vb6_wMHCw8TFxsc");
    let hashes = [
        "GQHaHJ9pm0j2smNuZcv3Or-Z0EQe9n9cVApC9wUd7G8",
        "fqS7JTTGcDb0nee-tf6KJHjfBP8_70CpzUkjmZpZDpkS3xKXIXzhoCGqL7EBNJi4",
        "mGBY6YleLCq4-ejL34AdsSpEhCpWqR1aToex_Jiyk3IsRmQULkLDxVH_iYZGJozZK4TtIwuMlL7XeY1PJ810ZQ",
    ];
    for hash in hashes {
        let keys = set_of(&[long.clone(), key_with(hash)]);
        assert_eq!(both_answers(&keys, 2, SIGNED_BY_ONE), Err(Refusal::Key));
    }
    let same = set_of(&[OTHER_KEY.to_string(), OTHER_KEY.to_string()]);
    assert_eq!(both_answers(&same, 2, SIGNED_BY_OTHER), Err(Refusal::Key));
    // The other key, and a zero octet after it.
    let longer = key_with("AAECAwQFBgcICQoLDA0ODxAREhMUFRYXGBkaGxwdHh8A");
    let alike = set_of(&[OTHER_KEY.to_string(), longer]);
    assert!(verify(alike.as_bytes(), SIGNED_BY_OTHER, Signers::All).is_ok());
    assert_eq!(both_answers(&alike, 2, SIGNED_BY_OTHER), Err(Refusal::Key));
}
