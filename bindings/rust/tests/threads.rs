//! Many threads call at once, and each gets its own answers.

mod common;

use common::*;
use lakhdzeva::*;
use std::sync::Barrier;
use std::thread;

const THREADS: u8 = 32;

#[test]
fn threads_get_their_own_answers() {
    let start = Barrier::new(THREADS.into());
    thread::scope(|scope| {
        for number in 0..THREADS {
            let start = &start;
            scope.spawn(move || {
                start.wait();
                for round in 0..20 {
                    calls_of(number, round);
                }
            });
        }
    });
}

fn calls_of(number: u8, round: u8) {
    let content = vec![number; 1 + usize::from(round) * 100];
    let key = generate(br#"{"alg":"HS256"}"#).unwrap();
    let object = sign(&key, b"{}", Form::Json, &content).unwrap();
    assert_eq!(
        verify(&key, object.as_bytes(), Signers::All).unwrap(),
        content
    );
    assert_eq!(
        verify(RFC7515_KEY, object.as_bytes(), Signers::One),
        Err(Refusal::NotOpened)
    );
    let key = generate(br#"{"alg":"A256GCMKW"}"#).unwrap();
    let (object, ciphertext) = encrypt_detached(&key, b"{}", Form::Compact, &content).unwrap();
    assert_eq!(
        decrypt(&key, object.as_bytes(), Some(&ciphertext)).unwrap(),
        content
    );
    assert_eq!(
        decrypt(RFC7516_KEY, RFC7516_A3, None).unwrap(),
        RFC7516_PLAINTEXT
    );
}
