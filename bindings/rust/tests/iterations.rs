//! No password is tried unless the caller names a number of iterations.

mod common;

use common::*;
use lakhdzeva::*;

const TEMPLATE: &[u8] = br#"{"protected":{"alg":"PBES2-HS256+A128KW","p2c":1000}}"#;

#[test]
fn a_stranger_asks_for_the_most() {
    let key = key_of('A', 22);
    let keys = copies(&key, 64);
    for keys in [&key, &keys] {
        assert_eq!(decrypt(keys.as_bytes(), COSTLY, None), Err(Refusal::Limit));
        for iterations in [0, 1, 600_000, 1_999_999] {
            assert_eq!(
                decrypt_with_iterations(keys.as_bytes(), COSTLY, None, iterations),
                Err(Refusal::Limit)
            );
        }
    }
    // 64 keys make 128,000,000 iterations.
    for iterations in [16_000_000, u64::MAX] {
        assert_eq!(
            decrypt_with_iterations(keys.as_bytes(), COSTLY, None, iterations),
            Err(Refusal::Limit)
        );
    }
}

#[test]
fn each_recipient_counts_with_each_key_that_fits() {
    let keys = set_of(&[key_of('A', 2), key_of('Q', 2)]);
    let object = encrypt(keys.as_bytes(), TEMPLATE, Form::Json, b"secret").unwrap();
    for (keys, needed) in [(key_of('A', 2), 2000), (keys, 4000)] {
        let with = |most| decrypt_with_iterations(keys.as_bytes(), object.as_bytes(), None, most);
        assert_eq!(with(needed), Ok(b"secret".to_vec()));
        assert_eq!(with(u64::MAX), Ok(b"secret".to_vec()));
        for fewer in [0, 1, needed - 1] {
            assert_eq!(with(fewer), Err(Refusal::Limit), "{fewer}");
        }
    }
}

#[test]
fn a_detached_ciphertext_is_no_way_around() {
    let key = key_of('A', 2);
    let (object, ciphertext) =
        encrypt_detached(key.as_bytes(), TEMPLATE, Form::Json, b"secret").unwrap();
    let with =
        |most| decrypt_with_iterations(key.as_bytes(), object.as_bytes(), Some(&ciphertext), most);
    assert_eq!(with(999), Err(Refusal::Limit));
    assert_eq!(with(1000), Ok(b"secret".to_vec()));
}
