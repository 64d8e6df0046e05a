//! Sign and verify (JWS, RFC 7515), encrypt and decrypt (JWE, RFC 7516), make keys (JWK, RFC 7517) and compute their thumbprints
//! (RFC 7638), with octet keys.
//!
//! The work is done by the library lakhdzeva, which is proved. This crate passes bytes to it, and decides nothing.
//!
//! ```
//! use lakhdzeva::{Form, Keys, Refusal};
//!
//! // A service reads its keys once, when it starts. Then each refusal that is no fault is about the token.
//! let keys = Keys::new(br#"{"kty":"oct","alg":"HS256","k":"AAECAwQFBgcICQoLDA0ODxAREhMUFRYXGBkaGxwdHh8"}"#)?;
//! let token: String = keys.sign(b"{}", Form::Compact, b"hello")?;
//! let payload = match keys.verify(token.as_bytes()) {
//!     Ok(payload) => payload,
//!     Err(refusal) if refusal.is_fault() => panic!("answer 500: {refusal}"),
//!     Err(refusal) => panic!("answer 401: {refusal}"),
//! };
//! assert_eq!(payload, b"hello");
//! # Ok::<(), Refusal>(())
//! ```
//!
//! # Arguments
//!
//! - `keys` is the JSON text of one key, or of a set (RFC 7517 sections 4 and 5). Signing and encrypting use each key of a set, and
//!   refuse a set with an invalid key. Verifying and decrypting ignore invalid keys of a set, and try each of the others.
//! - `template` is a JSON template: the headers of a token, or the members of a key. With `b"{}"` the keys decide.
//! - `form` is the serialization of an object that is written (RFC 7515 and RFC 7516, section 7). Objects that are read may have any form.
//!
//! # What to mind with every function
//!
//! - The keys say whom you trust. Never take them from the object.
//! - All keys are shared secrets: whoever can verify can also sign, and whoever can decrypt can also encrypt.
//! - A key without `alg` is used for each algorithm that takes its length. So write `alg` and `key_ops` into each key.
//! - The member `kid` never selects a key: each key that you pass is tried.
//! - If a name is repeated in a JSON object, the last one counts.
//! - A token takes up to 132 times its length in memory, and an object in JSON form up to 350 times. So limit the length of a
//!   stranger's text.
//! - The library wipes the memory that it used. Your own is not wiped: slices, and the vectors of results.
//! - The timing of reading a key's text depends on the key.
//!
//! # What you must guarantee
//!
//! - A call needs 256 KiB of stack. Any number of threads may call at once.
//! - Do not call from a signal handler. After a fork of a process with threads, do not call in the child.
//! - Nothing may jump out of a call (`siglongjmp` or `longjmp` in a signal handler), and no thread may be cancelled in one
//!   (`PTHREAD_CANCEL_ASYNCHRONOUS`): the heap would be broken. To bound the time of a call, limit the lengths and the iterations that you
//!   pass, or call in a process of its own.
#![deny(missing_docs, unsafe_code, unsafe_op_in_unsafe_fn)]

#[allow(unsafe_code)]
mod calls;
mod file_error;
mod keys;
mod refusal;

pub use crate::file_error::FileError;
pub use crate::keys::{KeyUses, Keys};
pub use crate::refusal::Refusal;

/// The version of the library, such as `3.0.0`.
#[must_use]
pub fn version() -> &'static str {
    calls::version()
}

/// What the library wrote, which is JSON or a compact text.
fn text(octets: Vec<u8>) -> String {
    // A message of `expect` would show the bytes.
    String::from_utf8(octets).unwrap_or_else(|_| panic!("the library writes UTF-8"))
}

/// The serialization of an object that is written.
#[derive(Clone, Copy, Debug, PartialEq, Eq, Hash)]
pub enum Form {
    /// A JSON object (RFC 7515 and RFC 7516, section 7.2): flattened for one signature or recipient, and otherwise general.
    Json,
    /// Parts with dots between them (RFC 7515 and RFC 7516, section 7.1). Such an object has one signature or one recipient.
    Compact,
}

impl Form {
    /// The flag of the header.
    const fn flag(self) -> u32 {
        match self {
            Form::Json => 0,
            Form::Compact => calls::COMPACT,
        }
    }
}

/// The keys that must have signed an object.
#[derive(Clone, Copy, Debug, PartialEq, Eq, Hash)]
pub enum Signers {
    /// At least one of the keys.
    One,
    /// Each of the valid keys. It does not count signers: [`verify_all`] does.
    All,
}

impl Signers {
    /// The flag of the header.
    const fn flag(self) -> u32 {
        match self {
            Signers::One => 0,
            Signers::All => calls::ALL,
        }
    }
}

/// The hash of a thumbprint (FIPS 180-4).
#[derive(Clone, Copy, Debug, PartialEq, Eq, Hash)]
pub enum Hash {
    /// SHA-224.
    Sha224,
    /// SHA-256, which is the usual one.
    Sha256,
    /// SHA-384.
    Sha384,
    /// SHA-512.
    Sha512,
}

impl Hash {
    /// The length of a digest in bits.
    const fn bits(self) -> u32 {
        match self {
            Hash::Sha224 => 224,
            Hash::Sha256 => 256,
            Hash::Sha384 => 384,
            Hash::Sha512 => 512,
        }
    }
}

/// Makes a random key as the template asks, and returns its JSON text (RFC 7517 section 4, RFC 7518 section 6.4).
///
/// The template names the algorithm (`alg`), or the length in bytes (`bytes`), or both. Its other members are copied.
///
/// Refusals: [`Json`](Refusal::Json), [`Number`](Refusal::Number), [`Key`](Refusal::Key), [`Limit`](Refusal::Limit),
/// [`Unsupported`](Refusal::Unsupported), [`NoAlgorithm`](Refusal::NoAlgorithm), [`KeyDoesNotFit`](Refusal::KeyDoesNotFit),
/// [`Random`](Refusal::Random), [`Memory`](Refusal::Memory).
///
/// ```
/// use lakhdzeva::{generate, Refusal};
///
/// let key = generate(br#"{"alg":"A256GCM","kid":"7"}"#)?;
/// assert!(key.starts_with(br#"{"alg":"A256GCM","k":""#));
/// assert_eq!(generate(b"{}"), Err(Refusal::NoAlgorithm));
/// # Ok::<(), Refusal>(())
/// ```
pub fn generate(template: &[u8]) -> Result<Vec<u8>, Refusal> {
    calls::generate(template)
}

/// The thumbprints of the valid keys of a text, in their order, with a line feed between each two (RFC 7638).
///
/// The thumbprint of a password is not safe to publish: it lets anyone test guesses.
///
/// Refusals: [`Json`](Refusal::Json), [`Number`](Refusal::Number), [`Key`](Refusal::Key), [`Limit`](Refusal::Limit),
/// [`Memory`](Refusal::Memory).
///
/// ```
/// use lakhdzeva::{thumbprints, Hash, Refusal};
///
/// let key = br#"{"kty":"oct","k":"GawgguFyGrWKav7AX4VKUg"}"#;
/// assert_eq!(thumbprints(key, Hash::Sha256)?, "k1JnWRfC-5zzmL72vXIuBgTLfVROXBakS4OmGcrMCoc");
/// # Ok::<(), Refusal>(())
/// ```
pub fn thumbprints(keys: &[u8], hash: Hash) -> Result<String, Refusal> {
    calls::thumbprints(keys, hash.bits()).map(text)
}

/// What each member of a text of keys may do, in order: each member of a set, or the key that is alone. [`Keys::uses`] is the same, and is
/// checked once.
///
/// - A key may do something if it may by some algorithm. Whether it fits an object shows when that comes.
/// - A key with `good` need not be usable: one of 5 bytes for HS256 verifies nothing. A service that verifies asks for `verify` of each.
/// - Whoever has a key can do with it what it may not do: `use` and `key_ops` are rules for this library and others like it.
///
/// Refusals: [`Json`](Refusal::Json), [`Number`](Refusal::Number), [`Key`](Refusal::Key), [`Limit`](Refusal::Limit),
/// [`Memory`](Refusal::Memory).
///
/// ```
/// use lakhdzeva::{judge_keys, Refusal};
///
/// let set = br#"{"keys":[{"kty":"RSA"},{"kty":"oct","alg":"A128KW","k":"GawgguFyGrWKav7AX4VKUg"}]}"#;
/// let uses = judge_keys(set)?;
/// assert!(!uses[0].good);
/// assert!(uses[1].encrypt && uses[1].decrypt && !uses[1].verify);
/// # Ok::<(), Refusal>(())
/// ```
pub fn judge_keys(keys: &[u8]) -> Result<Vec<KeyUses>, Refusal> {
    Ok(calls::judge_keys(keys)?
        .into_iter()
        .map(KeyUses::of_number)
        .collect())
}

/// Signs the payload with each of the keys, and returns the object (RFC 7515 section 5.1).
///
/// The template may have the members `protected` and `header`. Each is an object with members of the header. `header` is a header that is
/// not signed. The payload is in the object as it is, and not secret.
///
/// Refusals: [`Json`](Refusal::Json), [`Number`](Refusal::Number), [`Key`](Refusal::Key), [`Form`](Refusal::Form),
/// [`Header`](Refusal::Header), [`Unsupported`](Refusal::Unsupported), [`NoAlgorithm`](Refusal::NoAlgorithm),
/// [`KeyDoesNotFit`](Refusal::KeyDoesNotFit), [`Limit`](Refusal::Limit), [`NotCompact`](Refusal::NotCompact),
/// [`Memory`](Refusal::Memory).
///
/// ```
/// use lakhdzeva::{sign, Form, Refusal};
///
/// let key = br#"{"kty":"oct","alg":"HS256","k":"AAAAAAAAAAAAAAAAAAAAAAAAAAAAAAAAAAAAAAAAAAA"}"#;
/// let token = sign(key, br#"{"protected":{"typ":"JWT"}}"#, Form::Compact, b"{}")?;
/// assert!(token.starts_with("eyJhbGciOiJIUzI1NiIsInR5cCI6IkpXVCJ9.e30."));
/// # Ok::<(), Refusal>(())
/// ```
pub fn sign(keys: &[u8], template: &[u8], form: Form, payload: &[u8]) -> Result<String, Refusal> {
    calls::sign(keys, template, form.flag(), payload).map(text)
}

/// Signs the payload with each of the keys, and returns the object without the payload (RFC 7515 appendix F).
///
/// The rest is as for [`sign`].
///
/// ```
/// use lakhdzeva::{generate, sign_detached, verify_detached, Form, Refusal, Signers};
///
/// let key = generate(br#"{"alg":"HS512"}"#)?;
/// let object = sign_detached(&key, b"{}", Form::Json, b"a long text")?;
/// verify_detached(&key, object.as_bytes(), Signers::One, b"a long text")?;
/// # Ok::<(), Refusal>(())
/// ```
pub fn sign_detached(
    keys: &[u8],
    template: &[u8],
    form: Form,
    payload: &[u8],
) -> Result<String, Refusal> {
    calls::sign(keys, template, form.flag() | calls::DETACH, payload).map(text)
}

/// Verifies the object, and returns its payload (RFC 7515 section 5.2).
///
/// - With [`Signers::All`] each valid key must have made a signature. It skips invalid keys, and takes one signature for two keys that
///   sign alike. So for a rule such as "Ann and Bob must both sign" call [`verify_all`].
/// - It checks no claims, such as `exp` of a JWT.
/// - An old object verifies too, so put a number or a date into what you sign.
/// - One token has many texts: to revoke it, list an id in its payload, and not its text.
/// - In JSON form a header can be unsigned, or belong to a signature that none of your keys made: if a header matters, accept only compact
///   form.
/// - It computes an HMAC of the payload for each key, algorithm and protected header, at most 256 times 64: limit the length of what
///   strangers send.
///
/// Refusals: [`Json`](Refusal::Json), [`Number`](Refusal::Number), [`Key`](Refusal::Key), [`Limit`](Refusal::Limit),
/// [`Form`](Refusal::Form), [`Base64`](Refusal::Base64), [`Header`](Refusal::Header), [`Unsupported`](Refusal::Unsupported),
/// [`KeyDoesNotFit`](Refusal::KeyDoesNotFit), [`NotOpened`](Refusal::NotOpened), [`Memory`](Refusal::Memory).
///
/// ```
/// use lakhdzeva::{verify, Refusal, Signers};
///
/// // RFC 7515 appendix A.1.
/// let key = br#"{"kty":"oct","k":"AyM1SysPpbyDfgZld3umj1qzKObwVMkoqQ-EstJQLr_T-1qS0gZH75aKtMN3Yj0iPS4hcgUuTwjAzZr1Z9CAow"}"#;
/// let object = b"eyJ0eXAiOiJKV1QiLA0KICJhbGciOiJIUzI1NiJ9.\
///     eyJpc3MiOiJqb2UiLA0KICJleHAiOjEzMDA4MTkzODAsDQogImh0dHA6Ly9leGFtcGxlLmNvbS9pc19yb290Ijp0cnVlfQ.\
///     dBjftJeZ4CVP-mB92K27uhbUJU1p1r_wW1gFWFOEjXk";
/// let payload = verify(key, object, Signers::One)?;
/// assert!(payload.starts_with(b"{\"iss\":\"joe\","));
/// # Ok::<(), Refusal>(())
/// ```
pub fn verify(keys: &[u8], object: &[u8], signers: Signers) -> Result<Vec<u8>, Refusal> {
    calls::verify(keys, object, signers.flag())
}

/// Verifies the object with this payload, which is not in the object (RFC 7515 appendix F).
///
/// An object that has its own payload is refused with [`Form`](Refusal::Form). The rest is as for [`verify`].
///
/// ```
/// use lakhdzeva::{generate, sign_detached, verify_detached, Form, Refusal, Signers};
///
/// let key = generate(br#"{"alg":"HS256"}"#)?;
/// let object = sign_detached(&key, b"{}", Form::Compact, b"one")?;
/// assert_eq!(verify_detached(&key, object.as_bytes(), Signers::One, b"two"), Err(Refusal::NotOpened));
/// # Ok::<(), Refusal>(())
/// ```
pub fn verify_detached(
    keys: &[u8],
    object: &[u8],
    signers: Signers,
    payload: &[u8],
) -> Result<(), Refusal> {
    calls::verify_detached(keys, object, signers.flag(), payload)
}

/// Verifies the object, and returns its payload and the position in the set, from 0, of the first key that made a signature.
///
/// It is for a service whose keys belong to different parties. An invalid key is refused as by [`sign`], so the position counts every key of the set.
///
/// - Nobody but the owner of a key may know it: whoever has the bytes of a key can sign as its owner.
/// - An object in JSON form can have signatures of several keys. This names the first key of the set that made one, and no other.
///
/// The rest is as for [`verify`].
///
/// ```
/// use lakhdzeva::{generate, sign, verify_signer, Form, Refusal};
///
/// let (ann, bob) = (generate(br#"{"alg":"HS256"}"#)?, generate(br#"{"alg":"HS256"}"#)?);
/// let tenants = [br#"{"keys":["#, &ann[..], b",", &bob, b"]}"].concat();
/// let object = sign(&bob, b"{}", Form::Compact, b"an order")?;
/// assert_eq!(verify_signer(&tenants, object.as_bytes())?, (b"an order".to_vec(), 1));
/// # Ok::<(), Refusal>(())
/// ```
pub fn verify_signer(keys: &[u8], object: &[u8]) -> Result<(Vec<u8>, usize), Refusal> {
    calls::verify_signer(keys, object)
}

/// Verifies that each key of the set signed the object, and returns its payload. The text has exactly so many keys as there are `signers`.
///
/// It is for rules about people, such as "Ann and Bob must both sign". An invalid key is refused as by [`sign`]. Another number of keys is
/// [`Key`](Refusal::Key), and so are two keys that sign alike: HMAC fills a short key with zeros and hashes a long one (RFC 2104), so keys
/// that differ can make the same signatures. It is [`NotOpened`](Refusal::NotOpened) unless each key made a signature.
///
/// - Use one call for one rule: two calls with two sets both succeed by one signature, if its key is in both sets.
/// - It counts keys, not people: whoever has two keys signs for two. So let each person compare the thumbprint of his key.
/// - The host that verifies has all keys, so it could sign as well.
///
/// The rest is as for [`verify`].
///
/// ```
/// use lakhdzeva::{generate, sign, verify_all, Form, Refusal};
///
/// let (ann, bob) = (generate(br#"{"alg":"HS256"}"#)?, generate(br#"{"alg":"HS256"}"#)?);
/// let people = [br#"{"keys":["#, &ann[..], b",", &bob, b"]}"].concat();
/// let object = sign(&people, b"{}", Form::Json, b"release 7")?;
/// assert_eq!(verify_all(&people, 2, object.as_bytes())?, b"release 7");
/// let object = sign(&ann, b"{}", Form::Json, b"release 7")?;
/// assert_eq!(verify_all(&people, 2, object.as_bytes()), Err(Refusal::NotOpened));
/// # Ok::<(), Refusal>(())
/// ```
pub fn verify_all(keys: &[u8], signers: usize, object: &[u8]) -> Result<Vec<u8>, Refusal> {
    calls::verify_all(keys, signers, object)
}

/// Verifies that each key of the set signed the object with this payload, which is not in the object (RFC 7515 appendix F).
///
/// The rest is as for [`verify_all`].
///
/// ```
/// use lakhdzeva::{generate, sign_detached, verify_all_detached, Form, Refusal};
///
/// let key = generate(br#"{"alg":"HS256"}"#)?;
/// let object = sign_detached(&key, b"{}", Form::Compact, b"one")?;
/// verify_all_detached(&key, 1, object.as_bytes(), b"one")?;
/// assert_eq!(verify_all_detached(&key, 2, object.as_bytes(), b"one"), Err(Refusal::Key));
/// # Ok::<(), Refusal>(())
/// ```
pub fn verify_all_detached(
    keys: &[u8],
    signers: usize,
    object: &[u8],
    payload: &[u8],
) -> Result<(), Refusal> {
    calls::verify_all_detached(keys, signers, object, payload)
}

/// Encrypts the plaintext to each of the keys, and returns the object (RFC 7516 section 5.1).
///
/// The template may have the members `protected` and `unprotected`, which are objects with members of the header, and `aad`, which is a
/// base64url text.
///
/// - The recipients share its random key, so each of them can put another plaintext into the object.
/// - When a host leaves, make a new key for each recipient that stays.
/// - Without an `alg`, a password of 16, 24 or 32 bytes is used as a key itself, without iterations.
/// - A password takes 100,000 iterations, or `p2c` of the template: name 600,000 there for one password.
/// - Use a key for at most 2^32 objects with AES-GCM key wrap, or with `dir` and a GCM.
/// - In the template `unprotected` is a header that is not authenticated, and `aad` is a text that everyone can read.
///
/// Refusals: [`Json`](Refusal::Json), [`Number`](Refusal::Number), [`Key`](Refusal::Key), [`Form`](Refusal::Form),
/// [`Base64`](Refusal::Base64), [`Header`](Refusal::Header), [`Unsupported`](Refusal::Unsupported),
/// [`NoAlgorithm`](Refusal::NoAlgorithm), [`KeyDoesNotFit`](Refusal::KeyDoesNotFit), [`Limit`](Refusal::Limit),
/// [`NotCompact`](Refusal::NotCompact), [`Random`](Refusal::Random), [`Memory`](Refusal::Memory).
///
/// ```
/// use lakhdzeva::{decrypt, encrypt, generate, Form, Refusal};
///
/// let key = generate(br#"{"alg":"A128KW"}"#)?;
/// let object = encrypt(&key, br#"{"protected":{"enc":"A128GCM"}}"#, Form::Compact, b"secret")?;
/// assert_eq!(decrypt(&key, object.as_bytes(), None)?, b"secret");
/// # Ok::<(), Refusal>(())
/// ```
pub fn encrypt(
    keys: &[u8],
    template: &[u8],
    form: Form,
    plaintext: &[u8],
) -> Result<String, Refusal> {
    Ok(text(
        calls::encrypt(keys, template, form.flag(), plaintext)?.0,
    ))
}

/// Encrypts the plaintext to each of the keys, and returns the object without its ciphertext, and the ciphertext.
///
/// RFC 7516 section 7.2.1 requires the ciphertext in the object. This library allows to keep it apart, as RFC 7515 appendix F has it for a
/// payload.
///
/// The rest is as for [`encrypt`].
///
/// ```
/// use lakhdzeva::{decrypt, encrypt_detached, generate, Form, Refusal};
///
/// let key = generate(br#"{"alg":"A256GCM"}"#)?;
/// let (object, ciphertext) = encrypt_detached(&key, b"{}", Form::Json, b"secret")?;
/// assert_eq!(ciphertext.len(), 6);
/// assert_eq!(decrypt(&key, object.as_bytes(), Some(&ciphertext))?, b"secret");
/// # Ok::<(), Refusal>(())
/// ```
pub fn encrypt_detached(
    keys: &[u8],
    template: &[u8],
    form: Form,
    plaintext: &[u8],
) -> Result<(String, Vec<u8>), Refusal> {
    let (object, ciphertext) =
        calls::encrypt(keys, template, form.flag() | calls::DETACH, plaintext)?;
    Ok((text(object), ciphertext))
}

/// Decrypts the object with one of the keys, and returns the plaintext (RFC 7516 section 5.2). It tries no password:
/// [`decrypt_with_iterations`] does.
///
/// The ciphertext is `None` if it is in the object. An empty ciphertext that is kept apart is `Some(&[])`.
///
/// - A password may have any length, so every key without `alg` fits, and an object for a password is refused with
///   [`Limit`](Refusal::Limit).
/// - The recipients share its random key, so each of them can put another plaintext into the object.
/// - A malicious writer can make an object that opens to two plaintexts for two recipients.
/// - It notices a changed `aad`, but does not check its text.
/// - Each pair of a recipient and a key that fits can cost a pass over the ciphertext, at most 256 times 64. An attacker without a key can
///   cause many of them: limit the length of strangers' objects.
///
/// Refusals: [`Json`](Refusal::Json), [`Number`](Refusal::Number), [`Key`](Refusal::Key), [`Limit`](Refusal::Limit),
/// [`Form`](Refusal::Form), [`Base64`](Refusal::Base64), [`Header`](Refusal::Header), [`Unsupported`](Refusal::Unsupported),
/// [`KeyDoesNotFit`](Refusal::KeyDoesNotFit), [`NotOpened`](Refusal::NotOpened), [`Memory`](Refusal::Memory).
///
/// ```
/// use lakhdzeva::{decrypt, Refusal};
///
/// // RFC 7516 appendix A.3.
/// let key = br#"{"kty":"oct","k":"GawgguFyGrWKav7AX4VKUg"}"#;
/// let object = b"eyJhbGciOiJBMTI4S1ciLCJlbmMiOiJBMTI4Q0JDLUhTMjU2In0.\
///     6KB707dM9YTIgHtLvtgWQ8mKwboJW3of9locizkDTHzBC2IlrT1oOQ.AxY8DCtDaGlsbGljb3RoZQ.\
///     KDlTtXchhZTGufMYmOYGS4HffxPSUrfmqCHXaI9wOGY.U0m_YmjN04DJvceFICbCVQ";
/// assert_eq!(decrypt(key, object, None)?, b"Live long and prosper.");
/// # Ok::<(), Refusal>(())
/// ```
pub fn decrypt(keys: &[u8], object: &[u8], ciphertext: Option<&[u8]>) -> Result<Vec<u8>, Refusal> {
    decrypt_with_iterations(keys, object, ciphertext, 0)
}

/// Decrypts the object with one of the keys, of which some may be passwords. The call makes at most so many iterations of PBKDF2 in all.
///
/// - An object names its iterations itself, so a stranger's costs seconds: 2,000,000 for each recipient, and 16,000,000 in all. A greater
///   number means 16,000,000.
/// - The sum counts each recipient with each key that fits. If it is above the number, the call is [`Limit`](Refusal::Limit), before any
///   derivation.
/// - A password may have any length, so every key without `alg` fits. Give each key an `alg`: then one that is no password costs no
///   iteration.
/// - Name 600,000 for one password of today's recommendation.
///
/// The rest is as for [`decrypt`].
///
/// ```
/// use lakhdzeva::{decrypt, decrypt_with_iterations, encrypt, Form, Refusal};
///
/// let password = br#"{"kty":"oct","k":"Y29ycmVjdCBob3JzZQ","alg":"PBES2-HS256+A128KW"}"#;
/// let object = encrypt(password, br#"{"protected":{"p2c":1000}}"#, Form::Compact, b"secret")?;
/// assert_eq!(decrypt_with_iterations(password, object.as_bytes(), None, 1000)?, b"secret");
/// assert_eq!(decrypt_with_iterations(password, object.as_bytes(), None, 999), Err(Refusal::Limit));
/// assert_eq!(decrypt(password, object.as_bytes(), None), Err(Refusal::Limit));
/// # Ok::<(), Refusal>(())
/// ```
pub fn decrypt_with_iterations(
    keys: &[u8],
    object: &[u8],
    ciphertext: Option<&[u8]>,
    iterations: u64,
) -> Result<Vec<u8>, Refusal> {
    calls::decrypt(keys, object, ciphertext, iterations)
}

/// Writes a signed object in this form (RFC 7515 section 7). It sees no key and verifies nothing. Unknown members are left out.
///
/// The payload is `None` if it is in the object. A payload that is kept apart is passed, and becomes part of the object.
///
/// Refusals: [`Json`](Refusal::Json), [`Number`](Refusal::Number), [`Form`](Refusal::Form), [`Limit`](Refusal::Limit),
/// [`Base64`](Refusal::Base64), [`Header`](Refusal::Header), [`Unsupported`](Refusal::Unsupported),
/// [`NotCompact`](Refusal::NotCompact), [`Memory`](Refusal::Memory).
///
/// ```
/// use lakhdzeva::{format_signed, Form, Refusal};
///
/// let object = format_signed(b"eyJhbGciOiJIUzI1NiJ9.aGk.AAAA", None, Form::Json)?;
/// assert_eq!(object, r#"{"payload":"aGk","protected":"eyJhbGciOiJIUzI1NiJ9","signature":"AAAA"}"#);
/// # Ok::<(), Refusal>(())
/// ```
pub fn format_signed(object: &[u8], payload: Option<&[u8]>, form: Form) -> Result<String, Refusal> {
    Ok(text(calls::format_signed(object, payload, form.flag())?.0))
}

/// Writes a signed object in this form without its payload, and returns it and the payload (RFC 7515 appendix F). It verifies nothing.
///
/// The rest is as for [`format_signed`].
///
/// ```
/// use lakhdzeva::{format_signed_detached, Form, Refusal};
///
/// let (object, payload) = format_signed_detached(b"eyJhbGciOiJIUzI1NiJ9.aGk.AAAA", None, Form::Compact)?;
/// assert_eq!(object, "eyJhbGciOiJIUzI1NiJ9..AAAA");
/// assert_eq!(payload, b"hi");
/// # Ok::<(), Refusal>(())
/// ```
pub fn format_signed_detached(
    object: &[u8],
    payload: Option<&[u8]>,
    form: Form,
) -> Result<(String, Vec<u8>), Refusal> {
    let (object, payload) = calls::format_signed(object, payload, form.flag() | calls::DETACH)?;
    Ok((text(object), payload))
}

/// Writes an encrypted object in this form (RFC 7516 section 7). It sees no key and decrypts nothing. Unknown members are left out.
///
/// The ciphertext is `None` if it is in the object. A ciphertext that is kept apart is passed, and becomes part of the object.
///
/// The refusals are those of [`format_signed`].
///
/// ```
/// use lakhdzeva::{encrypt, format_encrypted, generate, Form, Refusal};
///
/// let key = generate(br#"{"alg":"A256GCM"}"#)?;
/// let compact = encrypt(&key, b"{}", Form::Compact, b"secret")?;
/// let json = format_encrypted(compact.as_bytes(), None, Form::Json)?;
/// assert_eq!(format_encrypted(json.as_bytes(), None, Form::Compact)?, compact);
/// # Ok::<(), Refusal>(())
/// ```
pub fn format_encrypted(
    object: &[u8],
    ciphertext: Option<&[u8]>,
    form: Form,
) -> Result<String, Refusal> {
    Ok(text(
        calls::format_encrypted(object, ciphertext, form.flag())?.0,
    ))
}

/// Writes an encrypted object in this form without its ciphertext, and returns it and the ciphertext. It decrypts nothing.
///
/// The rest is as for [`format_encrypted`].
///
/// ```
/// use lakhdzeva::{decrypt, encrypt, format_encrypted_detached, generate, Form, Refusal};
///
/// let key = generate(br#"{"alg":"A256GCM"}"#)?;
/// let whole = encrypt(&key, b"{}", Form::Compact, b"secret")?;
/// let (object, ciphertext) = format_encrypted_detached(whole.as_bytes(), None, Form::Json)?;
/// assert_eq!(decrypt(&key, object.as_bytes(), Some(&ciphertext))?, b"secret");
/// # Ok::<(), Refusal>(())
/// ```
pub fn format_encrypted_detached(
    object: &[u8],
    ciphertext: Option<&[u8]>,
    form: Form,
) -> Result<(String, Vec<u8>), Refusal> {
    let (object, ciphertext) =
        calls::format_encrypted(object, ciphertext, form.flag() | calls::DETACH)?;
    Ok((text(object), ciphertext))
}
