//! The answers never need more than the rooms of the library: with a room that is too small a call is refused with `3 Write`.

mod common;

use common::*;
use lakhdzeva::*;

const FORMS: [Form; 2] = [Form::Json, Form::Compact];
const CONTENTS: [usize; 9] = [0, 1, 2, 3, 15, 16, 17, 255, 4097];
const HEADS: [usize; 6] = [0, 1, 2, 3, 190, 3000];

/// A name and a text of so many characters, as members of a header, after a comma.
fn long_member(characters: usize) -> String {
    format!(r#","x":"{}""#, "x".repeat(characters))
}

#[test]
fn keys() {
    for octets in (1..=130).chain([1000, 4094, 4095, 4096]) {
        let template = format!(r#"{{"bytes":{octets}}}"#);
        generate(template.as_bytes()).unwrap();
    }
    for size in HEADS {
        let template = format!(
            r#"{{"alg":"PBES2-HS512+A256KW","bytes":4096{}}}"#,
            long_member(size)
        );
        generate(template.as_bytes()).unwrap();
    }
}

#[test]
fn thumbprints_of_the_shortest_keys() {
    let shortest = key_of('A', 2);
    for count in 1..=64 {
        let keys = copies(&shortest, count);
        let lines = thumbprints(keys.as_bytes(), Hash::Sha512).unwrap();
        assert_eq!(lines.len(), 87 * count - 1);
    }
    thumbprints(shortest.as_bytes(), Hash::Sha512).unwrap();
}

#[test]
fn signed_objects() {
    // HS512 has the longest signature. A template that names no algorithm gets one more member.
    let key = key_of('A', 86);
    for count in [1, 2, 3, 33, 64] {
        let keys = if count == 1 {
            key.clone()
        } else {
            copies(&key, count)
        };
        for size in HEADS {
            let member = long_member(size);
            let templates = [
                "{}".to_string(),
                format!(r#"{{"protected":{{"b":1{member}}}}}"#),
                format!(r#"{{"header":{{"b":1{member}}}}}"#),
                format!(r#"{{"header":{{"b":1{member}}},"protected":{{"c":1}}}}"#),
                format!(r#"{{"header":{{"alg":"HS512"{member}}}}}"#),
            ];
            for template in templates {
                let contents: &[usize] = if count < 3 { &CONTENTS } else { &[16] };
                for &content in contents {
                    let payload = vec![7; content];
                    let object =
                        sign(keys.as_bytes(), template.as_bytes(), Form::Json, &payload).unwrap();
                    verify(keys.as_bytes(), object.as_bytes(), Signers::All).unwrap();
                    if count > 1 || template.contains("header") {
                        continue;
                    }
                    sign(
                        keys.as_bytes(),
                        template.as_bytes(),
                        Form::Compact,
                        &payload,
                    )
                    .unwrap();
                }
                sign_detached(keys.as_bytes(), template.as_bytes(), Form::Json, &[7; 4096])
                    .unwrap();
            }
        }
    }
}

#[test]
fn encrypted_objects() {
    // A password has the shortest key and the longest header. Its key management needs the most random octets.
    let rows = [
        (key_of('A', 2), r#""alg":"PBES2-HS512+A256KW","p2c":1000"#),
        (key_of('A', 43), r#""alg":"A256GCMKW""#),
        (key_of('A', 22), r#""alg":"A128KW""#),
    ];
    for (key, alg) in rows {
        for count in [1, 2, 3, 33, 64] {
            let keys = if count == 1 {
                key.clone()
            } else {
                copies(&key, count)
            };
            for size in [0, 1, 3000] {
                let member = long_member(size);
                let enc = r#""enc":"A256CBC-HS512""#;
                let templates = [
                    format!(r#"{{"protected":{{{alg},{enc}{member}}}}}"#),
                    format!(r#"{{"unprotected":{{{alg},{enc}{member}}}}}"#),
                    format!(
                        r#"{{"aad":"{}","protected":{{{alg},{enc}}}}}"#,
                        "A".repeat(4 * size)
                    ),
                    format!(r#"{{"protected":{{{alg}}},"unprotected":{{{enc}{member}}}}}"#),
                ];
                for template in templates {
                    encrypted_in_its_rooms(&keys, &template, count);
                }
            }
        }
    }
    for alg in [
        "A128CBC-HS256",
        "A192CBC-HS384",
        "A256CBC-HS512",
        "A128GCM",
        "A256GCM",
    ] {
        let template = format!(r#"{{"alg":"{alg}"}}"#);
        let key = String::from_utf8(generate(template.as_bytes()).unwrap()).unwrap();
        encrypted_in_its_rooms(&key, "{}", 1);
    }
}

fn encrypted_in_its_rooms(keys: &str, template: &str, count: usize) {
    let contents: &[usize] = if count == 1 { &CONTENTS } else { &[16] };
    for &content in contents {
        let plaintext = vec![7; content];
        encrypt(keys.as_bytes(), template.as_bytes(), Form::Json, &plaintext).unwrap();
        if count == 1 && !template.contains("unprotected") && !template.contains("aad") {
            let object = encrypt(
                keys.as_bytes(),
                template.as_bytes(),
                Form::Compact,
                &plaintext,
            )
            .unwrap();
            decrypt_with_iterations(keys.as_bytes(), object.as_bytes(), None, 1000).unwrap();
        }
        let (object, ciphertext) =
            encrypt_detached(keys.as_bytes(), template.as_bytes(), Form::Json, &plaintext).unwrap();
        format_encrypted(object.as_bytes(), Some(&ciphertext), Form::Json).unwrap();
    }
}

#[test]
fn objects_in_other_forms() {
    let key = key_of('A', 86);
    for content in CONTENTS {
        let payload = vec![7; content];
        for from in FORMS {
            let object = sign(key.as_bytes(), b"{}", from, &payload).unwrap();
            let (apart, detached) = format_signed_detached(object.as_bytes(), None, from).unwrap();
            assert_eq!(detached, payload);
            for to in FORMS {
                let text = format_signed(object.as_bytes(), None, to).unwrap();
                let whole = format_signed(apart.as_bytes(), Some(&payload), to).unwrap();
                assert_eq!(whole, text);
                format_signed_detached(object.as_bytes(), None, to).unwrap();
                format_signed_detached(apart.as_bytes(), Some(&payload), to).unwrap();
            }
        }
    }
    // The shortest objects grow the most. Their headers are {"alg":""} and {"alg":"","enc":""}.
    let signed = b"eyJhbGciOiIifQ..";
    let text = format_signed(signed, None, Form::Json).unwrap();
    assert!(text.len() > signed.len());
    let encrypted = b"eyJhbGciOiIiLCJlbmMiOiIifQ....";
    let text = format_encrypted(encrypted, None, Form::Json).unwrap();
    assert!(text.len() > encrypted.len());
}
