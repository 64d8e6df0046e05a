//! The functions of the library, as safe functions over slices.
//!
//! lakhdzeva.h says what a caller owes. These functions meet it so:
//! - Each pointer and length are those of one slice or reference, which is borrowed for the call.
//! - Everything that a call writes is behind `&mut`, so it overlaps nothing else.
//! - The declarations are those of lakhdzeva.h. The test `declarations` compares them.
//!
//! The duties of stack, signal handlers, forks and jumps are those of the program. The first page of the crate states them.

use crate::Refusal;
use std::ffi::{c_char, CStr};
use std::ptr;

/// Flags of the header.
pub(crate) const COMPACT: u32 = 1;
pub(crate) const DETACH: u32 = 2;
pub(crate) const ALL: u32 = 4;

unsafe extern "C" {
    fn lakhdzeva_name(status: u32) -> *const c_char;
    fn lakhdzeva_version() -> *const c_char;
    fn lakhdzeva_generate_room(template_length: usize) -> usize;
    fn lakhdzeva_generate(
        template_text: *const u8,
        template_length: usize,
        key: *mut u8,
        room: usize,
        length: *mut usize,
    ) -> u32;
    fn lakhdzeva_thumbprints_room(keys_length: usize) -> usize;
    fn lakhdzeva_thumbprints(
        keys: *const u8,
        keys_length: usize,
        bits: u32,
        lines: *mut u8,
        room: usize,
        length: *mut usize,
    ) -> u32;
    fn lakhdzeva_judge_keys_room(keys_length: usize) -> usize;
    fn lakhdzeva_judge_keys(
        keys: *const u8,
        keys_length: usize,
        uses: *mut u8,
        room: usize,
        length: *mut usize,
    ) -> u32;
    fn lakhdzeva_sign_room(
        keys_length: usize,
        template_length: usize,
        payload_length: usize,
    ) -> usize;
    fn lakhdzeva_sign(
        keys: *const u8,
        keys_length: usize,
        template_text: *const u8,
        template_length: usize,
        flags: u32,
        payload: *const u8,
        payload_length: usize,
        object: *mut u8,
        room: usize,
        length: *mut usize,
    ) -> u32;
    fn lakhdzeva_verify_room(object_length: usize) -> usize;
    fn lakhdzeva_verify(
        keys: *const u8,
        keys_length: usize,
        object: *const u8,
        object_length: usize,
        flags: u32,
        payload: *mut u8,
        room: usize,
        length: *mut usize,
    ) -> u32;
    fn lakhdzeva_verify_detached(
        keys: *const u8,
        keys_length: usize,
        object: *const u8,
        object_length: usize,
        flags: u32,
        payload: *const u8,
        payload_length: usize,
    ) -> u32;
    fn lakhdzeva_verify_signer(
        keys: *const u8,
        keys_length: usize,
        object: *const u8,
        object_length: usize,
        payload: *mut u8,
        room: usize,
        length: *mut usize,
        signer: *mut usize,
    ) -> u32;
    fn lakhdzeva_verify_all(
        keys: *const u8,
        keys_length: usize,
        signers: usize,
        object: *const u8,
        object_length: usize,
        payload: *mut u8,
        room: usize,
        length: *mut usize,
    ) -> u32;
    fn lakhdzeva_verify_all_detached(
        keys: *const u8,
        keys_length: usize,
        signers: usize,
        object: *const u8,
        object_length: usize,
        payload: *const u8,
        payload_length: usize,
    ) -> u32;
    fn lakhdzeva_encrypt_room(
        keys_length: usize,
        template_length: usize,
        plaintext_length: usize,
    ) -> usize;
    fn lakhdzeva_ciphertext_room(plaintext_length: usize) -> usize;
    fn lakhdzeva_encrypt(
        keys: *const u8,
        keys_length: usize,
        template_text: *const u8,
        template_length: usize,
        flags: u32,
        plaintext: *const u8,
        plaintext_length: usize,
        object: *mut u8,
        object_room: usize,
        object_length: *mut usize,
        ciphertext: *mut u8,
        ciphertext_room: usize,
        ciphertext_length: *mut usize,
    ) -> u32;
    fn lakhdzeva_decrypt_room(object_length: usize, ciphertext_length: usize) -> usize;
    fn lakhdzeva_decrypt(
        keys: *const u8,
        keys_length: usize,
        object: *const u8,
        object_length: usize,
        ciphertext: *const u8,
        ciphertext_length: usize,
        iterations: u64,
        plaintext: *mut u8,
        room: usize,
        length: *mut usize,
    ) -> u32;
    fn lakhdzeva_format_room(object_length: usize, content_length: usize) -> usize;
    fn lakhdzeva_content_room(object_length: usize, content_length: usize) -> usize;
    fn lakhdzeva_format_signed(
        object: *const u8,
        object_length: usize,
        payload: *const u8,
        payload_length: usize,
        flags: u32,
        text: *mut u8,
        text_room: usize,
        text_length: *mut usize,
        detached: *mut u8,
        detached_room: usize,
        detached_length: *mut usize,
    ) -> u32;
    fn lakhdzeva_format_encrypted(
        object: *const u8,
        object_length: usize,
        ciphertext: *const u8,
        ciphertext_length: usize,
        flags: u32,
        text: *mut u8,
        text_room: usize,
        text_length: *mut usize,
        detached: *mut u8,
        detached_room: usize,
        detached_length: *mut usize,
    ) -> u32;
}

/// The answer of a call, and its content if that is detached.
pub(crate) type Answers = Result<(Vec<u8>, Vec<u8>), Refusal>;

/// So many octets that are zero.
fn zeros(length: usize) -> Result<Vec<u8>, Refusal> {
    let mut octets = Vec::new();
    octets
        .try_reserve_exact(length)
        .map_err(|_| Refusal::Memory)?;
    octets.resize(length, 0);
    Ok(octets)
}

/// The first octets of a place, without the memory behind them.
fn front(mut place: Vec<u8>, length: usize) -> Vec<u8> {
    place.truncate(length);
    place.shrink_to_fit();
    place
}

/// A place for a call: where it begins, and where the length of its answer goes.
type Place = (*mut u8, *mut usize);

/// The answer of a call that gets a place of this room.
fn answer(room: usize, call: impl FnOnce(Place) -> u32) -> Result<Vec<u8>, Refusal> {
    Ok(answers(room, 0, |place, _| call(place))?.0)
}

/// The two answers of a call that gets two places of these rooms.
fn answers(room: usize, other_room: usize, call: impl FnOnce(Place, Place) -> u32) -> Answers {
    let (mut one, mut other, mut lengths) = (zeros(room)?, zeros(other_room)?, (0, 0));
    Refusal::of_status(call(
        (one.as_mut_ptr(), &mut lengths.0),
        (other.as_mut_ptr(), &mut lengths.1),
    ))?;
    Ok((front(one, lengths.0), front(other, lengths.1)))
}

/// A content that is handed in. A pointer that is null says that it is in the object.
fn handed_in(content: Option<&[u8]>) -> (*const u8, usize) {
    content.map_or((ptr::null(), 0), |octets| (octets.as_ptr(), octets.len()))
}

/// The length of what the object of these flags holds of a content of this length.
fn held(flags: u32, length: usize) -> usize {
    if flags & DETACH == 0 {
        length
    } else {
        0
    }
}

/// The length of a detached content of at most this length.
fn detached(flags: u32, length: usize) -> usize {
    length - held(flags, length)
}

/// The name of a status, such as `NotOpened`.
pub(crate) fn name(status: u32) -> &'static str {
    // SAFETY: the function takes each number. It returns a text in ASCII with a NUL at its end, which stays as it is.
    let name = unsafe { CStr::from_ptr(lakhdzeva_name(status)) };
    name.to_str().unwrap_or("Unknown")
}

pub(crate) fn version() -> &'static str {
    // SAFETY: as in `name`.
    let version = unsafe { CStr::from_ptr(lakhdzeva_version()) };
    version.to_str().unwrap_or("unknown")
}

pub(crate) fn generate(template: &[u8]) -> Result<Vec<u8>, Refusal> {
    let (text, size) = (template.as_ptr(), template.len());
    // SAFETY: the first page of this module says how each duty of a caller is met. All pointers and lengths are of the arguments, in pairs,
    // and `answer` gives the call a place of the room, and a length.
    unsafe {
        let room = lakhdzeva_generate_room(size);
        answer(room, |(key, length)| {
            lakhdzeva_generate(text, size, key, room, length)
        })
    }
}

pub(crate) fn thumbprints(keys: &[u8], bits: u32) -> Result<Vec<u8>, Refusal> {
    // SAFETY: as in `generate`. Each number of bits is allowed.
    unsafe {
        let room = lakhdzeva_thumbprints_room(keys.len());
        answer(room, |(lines, length)| {
            lakhdzeva_thumbprints(keys.as_ptr(), keys.len(), bits, lines, room, length)
        })
    }
}

pub(crate) fn judge_keys(keys: &[u8]) -> Result<Vec<u8>, Refusal> {
    // SAFETY: as in `generate`.
    unsafe {
        let room = lakhdzeva_judge_keys_room(keys.len());
        answer(room, |(uses, length)| {
            lakhdzeva_judge_keys(keys.as_ptr(), keys.len(), uses, room, length)
        })
    }
}

pub(crate) fn sign(
    keys: &[u8],
    template: &[u8],
    flags: u32,
    payload: &[u8],
) -> Result<Vec<u8>, Refusal> {
    // SAFETY: as in `generate`. Each number is allowed as flags.
    unsafe {
        let room = lakhdzeva_sign_room(keys.len(), template.len(), held(flags, payload.len()));
        answer(room, |(object, length)| {
            lakhdzeva_sign(
                keys.as_ptr(),
                keys.len(),
                template.as_ptr(),
                template.len(),
                flags,
                payload.as_ptr(),
                payload.len(),
                object,
                room,
                length,
            )
        })
    }
}

pub(crate) fn verify(keys: &[u8], object: &[u8], flags: u32) -> Result<Vec<u8>, Refusal> {
    let (text, size) = (object.as_ptr(), object.len());
    // SAFETY: as in `sign`.
    unsafe {
        let room = lakhdzeva_verify_room(size);
        answer(room, |(payload, length)| {
            lakhdzeva_verify(
                keys.as_ptr(),
                keys.len(),
                text,
                size,
                flags,
                payload,
                room,
                length,
            )
        })
    }
}

pub(crate) fn verify_detached(
    keys: &[u8],
    object: &[u8],
    flags: u32,
    payload: &[u8],
) -> Result<(), Refusal> {
    // SAFETY: as in `sign`. The function writes nothing.
    Refusal::of_status(unsafe {
        lakhdzeva_verify_detached(
            keys.as_ptr(),
            keys.len(),
            object.as_ptr(),
            object.len(),
            flags,
            payload.as_ptr(),
            payload.len(),
        )
    })
}

pub(crate) fn verify_signer(keys: &[u8], object: &[u8]) -> Result<(Vec<u8>, usize), Refusal> {
    let (text, size, mut signer) = (object.as_ptr(), object.len(), 0);
    // SAFETY: as in `generate`. The place of the signer is a number of this function.
    let payload = unsafe {
        let room = lakhdzeva_verify_room(size);
        answer(room, |(payload, length)| {
            lakhdzeva_verify_signer(
                keys.as_ptr(),
                keys.len(),
                text,
                size,
                payload,
                room,
                length,
                &mut signer,
            )
        })
    }?;
    Ok((payload, signer))
}

pub(crate) fn verify_all(keys: &[u8], signers: usize, object: &[u8]) -> Result<Vec<u8>, Refusal> {
    let (text, size) = (object.as_ptr(), object.len());
    // SAFETY: as in `generate`. Each number of signers is allowed.
    unsafe {
        let room = lakhdzeva_verify_room(size);
        answer(room, |(payload, length)| {
            lakhdzeva_verify_all(
                keys.as_ptr(),
                keys.len(),
                signers,
                text,
                size,
                payload,
                room,
                length,
            )
        })
    }
}

pub(crate) fn verify_all_detached(
    keys: &[u8],
    signers: usize,
    object: &[u8],
    payload: &[u8],
) -> Result<(), Refusal> {
    // SAFETY: as in `verify_all`. The function writes nothing.
    Refusal::of_status(unsafe {
        lakhdzeva_verify_all_detached(
            keys.as_ptr(),
            keys.len(),
            signers,
            object.as_ptr(),
            object.len(),
            payload.as_ptr(),
            payload.len(),
        )
    })
}

pub(crate) fn encrypt(keys: &[u8], template: &[u8], flags: u32, plaintext: &[u8]) -> Answers {
    // SAFETY: as in `sign`. The two places do not overlap, since they are two vectors.
    unsafe {
        let content = held(flags, plaintext.len());
        let room = lakhdzeva_encrypt_room(keys.len(), template.len(), content);
        let other_room = detached(flags, lakhdzeva_ciphertext_room(plaintext.len()));
        answers(
            room,
            other_room,
            |(object, length), (other, other_length)| {
                lakhdzeva_encrypt(
                    keys.as_ptr(),
                    keys.len(),
                    template.as_ptr(),
                    template.len(),
                    flags,
                    plaintext.as_ptr(),
                    plaintext.len(),
                    object,
                    room,
                    length,
                    other,
                    other_room,
                    other_length,
                )
            },
        )
    }
}

/// The ciphertext is `None` if it is in the object.
pub(crate) fn decrypt(
    keys: &[u8],
    object: &[u8],
    ciphertext: Option<&[u8]>,
    iterations: u64,
) -> Result<Vec<u8>, Refusal> {
    let (content, size) = handed_in(ciphertext);
    // SAFETY: as in `generate`. Each number of iterations is allowed.
    unsafe {
        let room = lakhdzeva_decrypt_room(object.len(), size);
        answer(room, |(plaintext, length)| {
            lakhdzeva_decrypt(
                keys.as_ptr(),
                keys.len(),
                object.as_ptr(),
                object.len(),
                content,
                size,
                iterations,
                plaintext,
                room,
                length,
            )
        })
    }
}

/// The payload is `None` if it is in the object.
pub(crate) fn format_signed(object: &[u8], payload: Option<&[u8]>, flags: u32) -> Answers {
    // SAFETY: this is a function of the header with these arguments.
    unsafe { format(lakhdzeva_format_signed, object, payload, flags) }
}

/// The ciphertext is `None` if it is in the object.
pub(crate) fn format_encrypted(object: &[u8], ciphertext: Option<&[u8]>, flags: u32) -> Answers {
    // SAFETY: as in `format_signed`.
    unsafe { format(lakhdzeva_format_encrypted, object, ciphertext, flags) }
}

type Format = unsafe extern "C" fn(
    *const u8,
    usize,
    *const u8,
    usize,
    u32,
    *mut u8,
    usize,
    *mut usize,
    *mut u8,
    usize,
    *mut usize,
) -> u32;

/// # Safety
///
/// The function is `lakhdzeva_format_signed` or `lakhdzeva_format_encrypted`.
unsafe fn format(function: Format, object: &[u8], content: Option<&[u8]>, flags: u32) -> Answers {
    let (start, size) = handed_in(content);
    // SAFETY: as in `encrypt`.
    unsafe {
        let room = lakhdzeva_format_room(object.len(), held(flags, size));
        let other_room = detached(flags, lakhdzeva_content_room(object.len(), size));
        answers(room, other_room, |(text, length), (other, other_length)| {
            function(
                object.as_ptr(),
                object.len(),
                start,
                size,
                flags,
                text,
                room,
                length,
                other,
                other_room,
                other_length,
            )
        })
    }
}

#[cfg(test)]
mod tests {
    use super::*;

    #[test]
    fn a_room_that_memory_does_not_have_is_memory() {
        for room in [usize::MAX, usize::MAX / 2] {
            let made = answer(room, |_| panic!("there is no place"));
            assert_eq!(made, Err(Refusal::Memory));
            let made = answers(9, room, |_, _| panic!("there is no place"));
            assert_eq!(made, Err(Refusal::Memory));
        }
    }

    #[test]
    fn another_status_is_a_refusal_with_its_number() {
        for status in [1, 3, 17, 18, 255, 1 << 31, u32::MAX] {
            let refusal = answer(9, |_| status).unwrap_err();
            assert_eq!(refusal.number(), status);
        }
        let refusal = answer(0, |_| 18).unwrap_err();
        assert_eq!(refusal, Refusal::Unknown(18));
        assert_eq!(refusal.to_string(), "18 Unknown");
    }
}
