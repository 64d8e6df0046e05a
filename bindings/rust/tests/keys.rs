//! Keys that are judged when they are read.

mod common;

use common::*;
use lakhdzeva::{FileError, Form, Hash, Keys, Refusal};
use std::collections::HashMap;
use std::path::{Path, PathBuf};
use std::sync::{Arc, Mutex, OnceLock};
use std::{env, fs, process};

const HS256_KEY: &str =
    r#"{"kty":"oct","alg":"HS256","k":"AAECAwQFBgcICQoLDA0ODxAREhMUFRYXGBkaGxwdHh8"}"#;

fn keys_of(text: &str) -> Keys {
    Keys::new(text.as_bytes()).unwrap()
}

#[test]
fn keys_of_each_source() {
    let octets: Vec<u8> = (0..32).collect();
    let set = format!(r#"{{"keys":[{HS256_KEY},{{"kty":"RSA"}},{OTHER_KEY}]}}"#);
    for (keys, count) in [
        (keys_of(HS256_KEY), 1),
        (Keys::from_secret(&octets, "HS256").unwrap(), 1),
        (keys_of(&set), 2),
    ] {
        assert_eq!(keys.verify(SIGNED_BY_OTHER).unwrap(), b"hello");
        assert_eq!((keys.len(), keys.can_verify()), (count, true));
        let lines = lakhdzeva::thumbprints(keys.text(), Hash::Sha256).unwrap();
        assert_eq!(keys.thumbprints().join("\n"), lines);
        assert_eq!(keys.clone().text(), keys.text());
    }
}

#[test]
fn broken_keys_are_refused() {
    let many = copies(HS256_KEY, 65);
    for (text, refusal) in [
        ("", Refusal::Json),
        ("secret", Refusal::Json),
        (&HS256_KEY[..60], Refusal::Json),
        ("{}", Refusal::Key),
        (r#"{"kty":"RSA","n":"AQAB","e":"AQAB"}"#, Refusal::Key),
        (r#"{"keys":[]}"#, Refusal::Key),
        (r#"{"kty":"oct","k":"AA","n":1.5}"#, Refusal::Number),
        (&many, Refusal::Limit),
    ] {
        assert_eq!(Keys::new(text.as_bytes()).unwrap_err(), refusal, "{text}");
    }
}

/// A file of this name with this text, in a folder of this test run.
fn file_with(name: &str, text: &str) -> PathBuf {
    let folder = env::temp_dir().join(format!("lakhdzeva-keys-{}", process::id()));
    fs::create_dir_all(&folder).unwrap();
    let path = folder.join(name);
    fs::write(&path, text).unwrap();
    path
}

#[test]
fn keys_of_a_file() {
    let path = file_with("service.jwk", HS256_KEY);
    let keys = Keys::from_file(&path).unwrap();
    assert_eq!(keys.text(), HS256_KEY.as_bytes());
    assert_eq!(keys.verify(SIGNED_BY_OTHER).unwrap(), b"hello");
    assert_eq!(Keys::from_file(path.to_str().unwrap()).unwrap().len(), 1);
    for (text, refusal) in [
        ("", Refusal::Json),
        (&HS256_KEY[..60], Refusal::Json),
        (r#"{"kty":"RSA","n":"AQAB","e":"AQAB"}"#, Refusal::Key),
        (&copies(HS256_KEY, 65), Refusal::Limit),
    ] {
        let path = file_with("broken.jwk", text);
        let error = Keys::from_file(&path).unwrap_err();
        assert_eq!(error.refusal(), Some(refusal), "{text}");
        assert_eq!(error.file(), path);
        assert_eq!(error.to_string(), format!("{}: {refusal}", path.display()));
        assert_eq!(format!("{error:?}"), error.to_string());
    }
    fs::remove_dir_all(path.parent().unwrap()).unwrap();
}

#[test]
fn a_file_that_cannot_be_read_is_named() {
    let missing = Path::new("/nowhere/service.jwk");
    let error = Keys::from_file(missing).unwrap_err();
    assert_eq!((error.file(), error.refusal()), (missing, None));
    assert!(error.to_string().starts_with("/nowhere/service.jwk: "));
    // A folder can be opened, and not read.
    let folder = Keys::from_file(env::temp_dir()).unwrap_err();
    assert!(matches!(folder, FileError::Unreadable { .. }));
}

#[test]
fn secrets_of_octets() {
    for (octets, alg) in [
        (31, "HS256"),
        (32, "HS512"),
        (15, "A128KW"),
        (33, "A256GCM"),
    ] {
        let refused = Keys::from_secret(&vec![7; octets], alg).unwrap_err();
        assert_eq!(refused, Refusal::KeyDoesNotFit, "{alg}");
    }
    assert_eq!(Keys::from_secret(b"", "HS256").unwrap_err(), Refusal::Key);
    for alg in ["RS256", "none", "", "HS257", "hs256"] {
        let refused = Keys::from_secret(&[7; 32], alg).unwrap_err();
        assert_eq!(refused, Refusal::KeyDoesNotFit, "{alg}");
    }
    for alg in ["HS256\"", "\\", "HS256 "] {
        let refused = Keys::from_secret(&[7; 32], alg).unwrap_err();
        assert_eq!(refused, Refusal::Unsupported, "{alg}");
    }
    for alg in ["HS256", "A256KW", "A256GCM", "PBES2-HS256+A128KW"] {
        // The text of a key has the octets again, of each length of base64url.
        for length in [
            32,
            32 + usize::from(alg.starts_with("HS") || alg.starts_with('P')),
        ] {
            let octets: Vec<u8> = (0..length).map(|it| (it * 37 + 251) as u8).collect();
            let keys = Keys::from_secret(&octets, alg).unwrap();
            let text = String::from_utf8(keys.text().to_vec()).unwrap();
            let k = text
                .split(r#""k":""#)
                .nth(1)
                .unwrap()
                .trim_end_matches("\"}");
            let object = format!("eyJhbGciOiJIUzI1NiJ9.{k}.AAAA");
            let (_, decoded) =
                lakhdzeva::format_signed_detached(object.as_bytes(), None, Form::Compact).unwrap();
            assert_eq!(decoded, octets);
        }
    }
}

#[test]
fn keys_that_verify_nothing() {
    let wrapping = HS256_KEY.replace("HS256", "A256KW");
    let encrypting = HS256_KEY.replace('{', r#"{"use":"enc","#);
    let verifying = HS256_KEY.replace('{', r#"{"key_ops":["verify"],"#);
    let short = key_of('A', 22);
    for text in [&wrapping, &encrypting, &short] {
        assert!(!keys_of(text).can_verify(), "{text}");
    }
    for text in [
        &verifying,
        OTHER_KEY,
        &set_of(&[short, HS256_KEY.to_string()]),
    ] {
        assert!(keys_of(text).can_verify(), "{text}");
    }
}

#[test]
fn what_each_key_may_do() {
    let wrapping = HS256_KEY.replace('{', r#"{"key_ops":["wrapKey"],"#);
    for (text, uses) in [
        (HS256_KEY.to_string(), "sv"),
        (HS256_KEY.replace("HS256", "A256KW"), "ed"),
        (
            HS256_KEY.replace(r#""alg":"HS256","#, r#""key_ops":["verify"],"#),
            "v",
        ),
        (wrapping.replace("HS256", "A256KW"), "e"),
        (wrapping, ""),
        (key_of('A', 22).replace('{', r#"{"use":"sig","#), ""),
    ] {
        let keys = keys_of(&text);
        let may: Vec<bool> = "sved".chars().map(|use_| uses.contains(use_)).collect();
        let can = [
            keys.can_sign(),
            keys.can_verify(),
            keys.can_encrypt(),
            keys.can_decrypt(),
        ];
        assert_eq!(can.to_vec(), may, "{text}");
        let set = format!(r#"{{"keys":[{{"kty":"RSA"}},{text}]}}"#);
        let judged = lakhdzeva::judge_keys(set.as_bytes()).unwrap();
        assert_eq!(judged.len(), 2);
        let bad = judged[0];
        assert!(!bad.good && !bad.sign && !bad.verify && !bad.encrypt && !bad.decrypt);
        let one = judged[1];
        assert_eq!(
            [one.good, one.sign, one.verify, one.encrypt, one.decrypt],
            [true, can[0], can[1], can[2], can[3]]
        );
        assert_eq!(keys_of(&set).uses(), judged);
    }
    for (text, refusal) in [
        ("{", Refusal::Json),
        (r#"{"keys":[{}]}"#, Refusal::Key),
        (&copies(HS256_KEY, 65), Refusal::Limit),
    ] {
        assert_eq!(lakhdzeva::judge_keys(text.as_bytes()), Err(refusal));
    }
}

#[test]
fn a_bad_token_is_no_fault() {
    let keys = keys_of(HS256_KEY);
    let signature = r#"{"protected":"eyJhbGciOiJIUzI1NiJ9","signature":"AAAA"}"#;
    let many = format!(
        r#"{{"payload":"","signatures":[{}]}}"#,
        vec![signature; 257].join(",")
    );
    for (token, refusal) in [
        ("eyJhbGciOiJIUzI1NiJ9.aGk.A=", Refusal::Base64),
        ("ew.aGk.AAAA", Refusal::Json),
        ("eyJhbGciOiJIUzI1NiIsIm4iOjEuNX0.aGk.AAAA", Refusal::Number),
        ("", Refusal::Form),
        ("a.b", Refusal::Form),
        ("e30.aGk.AAAA", Refusal::Header),
        ("eyJhbGciOiJub25lIn0.aGk.", Refusal::Unsupported),
        ("eyJhbGciOiJIUzUxMiJ9.aGk.AAAA", Refusal::KeyDoesNotFit),
        (&many, Refusal::Limit),
        ("eyJhbGciOiJIUzI1NiJ9.aGk.AAAA", Refusal::NotOpened),
    ] {
        assert_eq!(keys.verify(token.as_bytes()), Err(refusal), "{token}");
        assert!(!refusal.is_fault(), "{refusal}");
    }
    assert_eq!(keys.verify_all(2, SIGNED_BY_OTHER), Err(Refusal::Key));
    for fault in [
        Refusal::Usage,
        Refusal::Read,
        Refusal::Write,
        Refusal::Memory,
        Refusal::Random,
        Refusal::Key,
        Refusal::NoAlgorithm,
        Refusal::Unknown(18),
    ] {
        assert!(fault.is_fault(), "{fault}");
    }
}

#[test]
fn each_method() {
    let (keys, wrap) = (keys_of(HS256_KEY), Keys::new(RFC7516_KEY).unwrap());
    let object = keys.sign(b"{}", Form::Compact, b"hello").unwrap();
    assert_eq!(object.as_bytes(), SIGNED_BY_OTHER);
    assert_eq!(keys.verify_all(1, object.as_bytes()).unwrap(), b"hello");
    assert_eq!(
        keys.verify_signer(object.as_bytes()),
        Ok((b"hello".to_vec(), 0))
    );
    let object = keys.sign_detached(b"{}", Form::Compact, b"hello").unwrap();
    assert_eq!(keys.verify_detached(object.as_bytes(), b"hello"), Ok(()));
    assert_eq!(
        keys.verify_all_detached(1, object.as_bytes(), b"hello"),
        Ok(())
    );
    let object = wrap.encrypt(b"{}", Form::Compact, b"hello").unwrap();
    assert_eq!(wrap.decrypt(object.as_bytes(), None).unwrap(), b"hello");
    let (object, ciphertext) = wrap.encrypt_detached(b"{}", Form::Json, b"hello").unwrap();
    let opened = wrap.decrypt_with_iterations(object.as_bytes(), Some(&ciphertext), 0);
    assert_eq!(opened.unwrap(), b"hello");
}

#[test]
fn the_signer_is_the_first_key_that_signed() {
    let set = keys_of(&set_of(&[OTHER_KEY.to_string(), HS256_KEY.to_string()]));
    let first = keys_of(OTHER_KEY)
        .sign(br#"{"protected":{"alg":"HS256"}}"#, Form::Compact, b"hello")
        .unwrap();
    assert_eq!(
        set.verify_signer(first.as_bytes()),
        Ok((b"hello".to_vec(), 0))
    );
    let second = keys_of(HS256_KEY)
        .sign(b"{}", Form::Compact, b"hello")
        .unwrap();
    let bad = keys_of(&set_of(&["{}".to_string(), HS256_KEY.to_string()]));
    assert_eq!(bad.verify_signer(second.as_bytes()), Err(Refusal::Key));
    assert_eq!(
        keys_of(OTHER_KEY).verify_signer(b"eyJhbGciOiJIUzI1NiJ9.aGk.AAAA"),
        Err(Refusal::NotOpened)
    );
}

#[test]
fn nothing_secret_is_printed() {
    let keys = keys_of(&set_of(&[HS256_KEY.to_string(), OTHER_KEY.to_string()]));
    for text in [
        format!("{keys:?}"),
        format!("{keys:#?}"),
        format!("{keys:x?}"),
    ] {
        assert_eq!(text, "Keys(2)");
    }
    // Where a derived Debug meets keys, it calls theirs.
    #[derive(Debug)]
    #[allow(dead_code)]
    struct Holder<'a> {
        value: Keys,
        lent: &'a Keys,
        boxed: Box<dyn std::fmt::Debug + 'a>,
        list: Vec<Option<Keys>>,
        shared: Arc<Mutex<Keys>>,
        by_name: HashMap<&'a str, Result<Keys, Refusal>>,
        once: OnceLock<Keys>,
    }
    let holder = Holder {
        value: keys.clone(),
        lent: &keys,
        boxed: Box::new(keys.clone()),
        list: vec![Some(keys.clone())],
        shared: Arc::new(Mutex::new(keys.clone())),
        by_name: HashMap::from([("a", Ok(keys.clone()))]),
        once: OnceLock::from(keys.clone()),
    };
    let numbers = format!("{:?}", &keys.text()[..20]);
    for text in [format!("{holder:?}"), format!("{holder:#?}")] {
        assert_eq!(text.matches("Keys(2)").count(), 7, "{text}");
        for secret in [
            "AAEC",
            numbers.trim_matches(['[', ']']),
            &keys.thumbprints()[0],
        ] {
            assert!(!text.contains(secret), "{text}");
        }
    }
}

#[test]
fn the_version_has_three_numbers() {
    assert_eq!(lakhdzeva::version().split('.').count(), 3);
}
