//! Contents that are kept apart from their objects (RFC 7515 appendix F).

mod common;

use common::*;
use lakhdzeva::*;

const FORMS: [Form; 2] = [Form::Json, Form::Compact];

#[test]
fn a_detached_payload_verifies_with_its_octets_alone() {
    for form in FORMS {
        for payload in [&b""[..], b"a", b"hello"] {
            let object = sign_detached(RFC7515_KEY, b"{}", form, payload).unwrap();
            assert_eq!(
                verify_detached(RFC7515_KEY, object.as_bytes(), Signers::One, payload),
                Ok(())
            );
            assert_eq!(
                verify_detached(RFC7515_KEY, object.as_bytes(), Signers::All, b"another"),
                Err(Refusal::NotOpened)
            );
        }
    }
}

#[test]
fn a_payload_is_in_the_object_or_apart() {
    let object = sign(RFC7515_KEY, b"{}", Form::Compact, b"hello").unwrap();
    assert_eq!(
        verify_detached(RFC7515_KEY, object.as_bytes(), Signers::One, b"hello"),
        Err(Refusal::Form)
    );
    let object = sign_detached(RFC7515_KEY, b"{}", Form::Json, b"hello").unwrap();
    assert_eq!(
        verify(RFC7515_KEY, object.as_bytes(), Signers::One),
        Err(Refusal::Form)
    );
    // An empty part of a compact text is an empty payload, which was not signed.
    let object = sign_detached(RFC7515_KEY, b"{}", Form::Compact, b"hello").unwrap();
    assert_eq!(
        verify(RFC7515_KEY, object.as_bytes(), Signers::One),
        Err(Refusal::NotOpened)
    );
}

#[test]
fn a_detached_payload_comes_back_into_its_object() {
    for form in FORMS {
        let (object, payload) = format_signed_detached(RFC7515_A1, None, form).unwrap();
        assert_eq!(payload, RFC7515_PAYLOAD);
        assert_eq!(
            verify_detached(RFC7515_KEY, object.as_bytes(), Signers::One, &payload),
            Ok(())
        );
        let whole = format_signed(object.as_bytes(), Some(&payload), Form::Compact).unwrap();
        assert_eq!(whole.as_bytes(), RFC7515_A1);
        let again = format_signed_detached(object.as_bytes(), Some(&payload), form).unwrap();
        assert_eq!(again, (object, payload));
    }
}

#[test]
fn a_detached_ciphertext_decrypts_with_its_octets_alone() {
    for form in FORMS {
        for plaintext in [&b""[..], b"a", b"hello"] {
            let (object, mut ciphertext) =
                encrypt_detached(RFC7516_KEY, b"{}", form, plaintext).unwrap();
            assert_eq!(ciphertext.len(), 16);
            assert_eq!(
                decrypt(RFC7516_KEY, object.as_bytes(), Some(&ciphertext)).unwrap(),
                plaintext
            );
            ciphertext[15] ^= 1;
            assert_eq!(
                decrypt(RFC7516_KEY, object.as_bytes(), Some(&ciphertext)),
                Err(Refusal::NotOpened)
            );
            assert_eq!(
                decrypt(RFC7516_KEY, object.as_bytes(), Some(b"")),
                Err(Refusal::NotOpened)
            );
        }
    }
}

#[test]
fn a_ciphertext_is_in_the_object_or_apart() {
    assert_eq!(
        decrypt(RFC7516_KEY, RFC7516_A3, Some(b"other")),
        Err(Refusal::Form)
    );
    let (object, _) = encrypt_detached(RFC7516_KEY, b"{}", Form::Json, b"a").unwrap();
    assert_eq!(
        decrypt(RFC7516_KEY, object.as_bytes(), None),
        Err(Refusal::Form)
    );
}

#[test]
fn a_detached_ciphertext_comes_back_into_its_object() {
    for form in FORMS {
        let (object, ciphertext) = format_encrypted_detached(RFC7516_A3, None, form).unwrap();
        assert_eq!(ciphertext.len(), 32);
        assert_eq!(
            decrypt(RFC7516_KEY, object.as_bytes(), Some(&ciphertext)).unwrap(),
            RFC7516_PLAINTEXT
        );
        let whole = format_encrypted(object.as_bytes(), Some(&ciphertext), Form::Compact).unwrap();
        assert_eq!(whole.as_bytes(), RFC7516_A3);
    }
}
