use crate::{FileError, Form, Hash, Refusal, Signers};
use std::path::Path;
use std::{fmt, fs};

/// One key or a set of keys, which was checked when it was read. Each call reads its text again.
///
/// So a refusal of its methods is about the token, or about what is signed or encrypted, unless it [is a fault](Refusal::is_fault) of the machine.
/// A service that verifies tokens asks one thing when it starts, and ends if a key may not verify:
///
/// ```
/// # fn check(keys: &lakhdzeva::Keys) -> Result<(), String> {
/// if let Some(at) = keys.uses().iter().position(|uses| !uses.verify) {
///     return Err(format!("the key at position {at} may not verify signatures"));
/// }
/// # Ok(())
/// # }
/// # assert!(check(&lakhdzeva::Keys::from_secret(&[7; 32], "HS256").unwrap()).is_ok());
/// # assert!(check(&lakhdzeva::Keys::from_secret(&[7; 32], "A256KW").unwrap()).is_err());
/// ```
///
/// - To verify and to decrypt, a key of a set that may not is skipped, and each token that it signed is [`NotOpened`](Refusal::NotOpened).
///   [`len`](Keys::len) is the number of the valid keys, and `good` is such a key. A valid key need not be usable: one of 5 bytes for HS256
///   verifies nothing.
/// - [`can_sign`](Keys::can_sign), [`can_verify`](Keys::can_verify), [`can_encrypt`](Keys::can_encrypt) and
///   [`can_decrypt`](Keys::can_decrypt) say whether one of them may. To sign and to encrypt, all of them must.
///
/// `Debug` shows no secret and no thumbprint. The memory is not wiped.
///
/// ```
/// use lakhdzeva::{Keys, Refusal};
///
/// // A truncated file ends the service when it starts, and not each request.
/// assert_eq!(Keys::new(br#"{"kty":"oct","alg":"HS256","k":"AAECAwQFBgcI"#).unwrap_err(), Refusal::Json);
/// let keys = Keys::from_secret(b"a secret of at least 32 characters", "HS256")?;
/// assert!(keys.uses().iter().all(|uses| uses.verify));
/// assert_eq!(format!("{keys:?}"), "Keys(1)");
/// # Ok::<(), Refusal>(())
/// ```
#[derive(Clone)]
pub struct Keys {
    text: Vec<u8>,
    uses: Vec<KeyUses>,
    thumbprints: Vec<String>,
}

/// Whether a member of a text of keys is a valid key, and what it may do by some algorithm. A valid key (`good`) may do nothing if its length
/// does not fit its `alg`.
#[derive(Clone, Copy, Debug, PartialEq, Eq)]
#[allow(clippy::struct_excessive_bools)]
pub struct KeyUses {
    /// It is an octet key, and not damaged.
    pub good: bool,
    /// It may sign.
    pub sign: bool,
    /// It may verify signatures.
    pub verify: bool,
    /// It may encrypt.
    pub encrypt: bool,
    /// It may decrypt.
    pub decrypt: bool,
}

impl KeyUses {
    /// By the number in lakhdzeva.h.
    pub(crate) fn of_number(number: u8) -> KeyUses {
        KeyUses {
            good: number & 16 != 0,
            sign: number & 1 != 0,
            verify: number & 2 != 0,
            encrypt: number & 4 != 0,
            decrypt: number & 8 != 0,
        }
    }
}

impl Keys {
    /// Reads the JSON text of a key or of a set. A text without a valid key is refused.
    pub fn new(text: &[u8]) -> Result<Keys, Refusal> {
        let uses = crate::judge_keys(text)?;
        let lines = crate::thumbprints(text, Hash::Sha256)?;
        Ok(Keys {
            text: text.to_vec(),
            uses,
            thumbprints: lines.split('\n').map(str::to_string).collect(),
        })
    }

    /// Reads the JSON text of a key or of a set from a file. The text of an error names the file, such as `service.jwk: 7 Json`, and so does that
    /// of a file that cannot be read.
    pub fn from_file(path: impl AsRef<Path>) -> Result<Keys, FileError> {
        let path = path.as_ref();
        let text = fs::read(path).map_err(|cause| FileError::Unreadable {
            file: path.to_path_buf(),
            cause,
        })?;
        Keys::new(&text).map_err(|refusal| FileError::Refused {
            file: path.to_path_buf(),
            refusal,
        })
    }

    /// Makes a key from the bytes of a secret that both sides share, for one algorithm, such as `HS256`.
    ///
    /// [`KeyDoesNotFit`](Refusal::KeyDoesNotFit) has two causes: the algorithm does not take a secret of this length (`HS256` needs 32 bytes, RFC
    /// 7518 section 3.2), or no algorithm has this name, such as `hs256` and `RS256`. An empty secret is [`Key`](Refusal::Key). An `alg` with
    /// characters other than letters and digits of ASCII, `-` and `+` is [`Unsupported`](Refusal::Unsupported).
    pub fn from_secret(secret: &[u8], alg: &str) -> Result<Keys, Refusal> {
        let known = |octet: u8| octet.is_ascii_alphanumeric() || octet == b'-' || octet == b'+';
        if !alg.bytes().all(known) {
            return Err(Refusal::Unsupported);
        }
        let k = base64url(secret);
        let keys = Keys::new(format!(r#"{{"kty":"oct","alg":"{alg}","k":"{k}"}}"#).as_bytes())?;
        // What may do nothing is refused here. A password may have any length.
        if keys.can_sign() || keys.can_encrypt() {
            Ok(keys)
        } else {
            Err(Refusal::KeyDoesNotFit)
        }
    }

    /// The number of valid keys, which is not 0.
    #[must_use]
    #[allow(clippy::len_without_is_empty)]
    pub fn len(&self) -> usize {
        self.thumbprints.len()
    }

    /// What each member of the text may do, in order, with the invalid ones.
    #[must_use]
    pub fn uses(&self) -> &[KeyUses] {
        &self.uses
    }

    /// Whether one of the keys may sign by some algorithm.
    #[must_use]
    pub fn can_sign(&self) -> bool {
        self.uses.iter().any(|uses| uses.sign)
    }

    /// Whether one of the keys may verify signatures. A service that verifies tokens asks of each key whether it may, by [`uses`](Keys::uses).
    #[must_use]
    pub fn can_verify(&self) -> bool {
        self.uses.iter().any(|uses| uses.verify)
    }

    /// Whether one of the keys may encrypt by some algorithms.
    #[must_use]
    pub fn can_encrypt(&self) -> bool {
        self.uses.iter().any(|uses| uses.encrypt)
    }

    /// Whether one of the keys may decrypt by some algorithms.
    #[must_use]
    pub fn can_decrypt(&self) -> bool {
        self.uses.iter().any(|uses| uses.decrypt)
    }

    /// The thumbprints of the valid keys by SHA-256 (RFC 7638), in their order. That of a password is not safe to publish: it lets anyone test
    /// guesses.
    #[must_use]
    pub fn thumbprints(&self) -> &[String] {
        &self.thumbprints
    }

    /// The JSON text, with the secrets.
    #[must_use]
    pub fn text(&self) -> &[u8] {
        &self.text
    }

    /// [`sign`](crate::sign) with these keys.
    pub fn sign(&self, template: &[u8], form: Form, payload: &[u8]) -> Result<String, Refusal> {
        crate::sign(&self.text, template, form, payload)
    }

    /// [`sign_detached`](crate::sign_detached) with these keys.
    pub fn sign_detached(
        &self,
        template: &[u8],
        form: Form,
        payload: &[u8],
    ) -> Result<String, Refusal> {
        crate::sign_detached(&self.text, template, form, payload)
    }

    /// [`verify`](crate::verify) with these keys, one of which must have signed the object.
    pub fn verify(&self, object: &[u8]) -> Result<Vec<u8>, Refusal> {
        crate::verify(&self.text, object, Signers::One)
    }

    /// [`verify_detached`](crate::verify_detached) with these keys, one of which must have signed the object.
    pub fn verify_detached(&self, object: &[u8], payload: &[u8]) -> Result<(), Refusal> {
        crate::verify_detached(&self.text, object, Signers::One, payload)
    }

    /// [`verify_signer`](crate::verify_signer) with these keys.
    pub fn verify_signer(&self, object: &[u8]) -> Result<(Vec<u8>, usize), Refusal> {
        crate::verify_signer(&self.text, object)
    }

    /// [`verify_all`](crate::verify_all) with these keys.
    pub fn verify_all(&self, signers: usize, object: &[u8]) -> Result<Vec<u8>, Refusal> {
        crate::verify_all(&self.text, signers, object)
    }

    /// [`verify_all_detached`](crate::verify_all_detached) with these keys.
    pub fn verify_all_detached(
        &self,
        signers: usize,
        object: &[u8],
        payload: &[u8],
    ) -> Result<(), Refusal> {
        crate::verify_all_detached(&self.text, signers, object, payload)
    }

    /// [`encrypt`](crate::encrypt) with these keys.
    pub fn encrypt(
        &self,
        template: &[u8],
        form: Form,
        plaintext: &[u8],
    ) -> Result<String, Refusal> {
        crate::encrypt(&self.text, template, form, plaintext)
    }

    /// [`encrypt_detached`](crate::encrypt_detached) with these keys.
    pub fn encrypt_detached(
        &self,
        template: &[u8],
        form: Form,
        plaintext: &[u8],
    ) -> Result<(String, Vec<u8>), Refusal> {
        crate::encrypt_detached(&self.text, template, form, plaintext)
    }

    /// [`decrypt`](crate::decrypt) with these keys.
    pub fn decrypt(&self, object: &[u8], ciphertext: Option<&[u8]>) -> Result<Vec<u8>, Refusal> {
        crate::decrypt(&self.text, object, ciphertext)
    }

    /// [`decrypt_with_iterations`](crate::decrypt_with_iterations) with these keys.
    pub fn decrypt_with_iterations(
        &self,
        object: &[u8],
        ciphertext: Option<&[u8]>,
        iterations: u64,
    ) -> Result<Vec<u8>, Refusal> {
        crate::decrypt_with_iterations(&self.text, object, ciphertext, iterations)
    }
}

impl fmt::Debug for Keys {
    /// Writes the number of the keys.
    fn fmt(&self, out: &mut fmt::Formatter<'_>) -> fmt::Result {
        write!(out, "Keys({})", self.len())
    }
}

/// The base64url text of these bytes, without padding (RFC 4648 section 5).
fn base64url(octets: &[u8]) -> String {
    const DIGITS: &[u8; 64] = b"ABCDEFGHIJKLMNOPQRSTUVWXYZabcdefghijklmnopqrstuvwxyz0123456789-_";
    let mut text = String::new();
    for group in octets.chunks(3) {
        let bits = group
            .iter()
            .fold(0, |bits, octet| bits << 8 | usize::from(*octet))
            << (8 * (3 - group.len()));
        for place in 0..=group.len() {
            text.push(DIGITS[bits >> (18 - 6 * place) & 63].into());
        }
    }
    text
}
