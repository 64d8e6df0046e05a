use std::error::Error;
use std::fmt;

/// The cause for which a call has no result. The numbers are stable.
///
/// If several causes apply, the first in the order of the library's specification is reported.
#[derive(Clone, Copy, PartialEq, Eq, Hash)]
#[non_exhaustive]
pub enum Refusal {
    /// The arguments are not allowed. No function of this crate returns it.
    Usage,
    /// An input failed. No function of this crate returns it.
    Read,
    /// A place is too small. No function of this crate returns it.
    Write,
    /// An allocation failed.
    Memory,
    /// The system gave no random bytes.
    Random,
    /// A text that must be base64url is not.
    Base64,
    /// A text that must be JSON is not.
    Json,
    /// A JSON number has a fraction, an exponent or more than 64 bits, or is `-0`.
    Number,
    /// The text is not a valid octet key, the set has no such key, or the template for a key is invalid. For
    /// [`verify_all`](crate::verify_all) it is also another number of keys, and two keys that sign alike.
    Key,
    /// Members are missing, have the wrong type or are not allowed together, or the number of parts is wrong.
    Form,
    /// A header member is missing or wrong.
    Header,
    /// An algorithm, `crit` or `zip` is not supported.
    Unsupported,
    /// Nothing names or implies the algorithm or the size.
    NoAlgorithm,
    /// The length, `alg`, `use` or `key_ops` of the key does not fit.
    KeyDoesNotFit,
    /// A limit is exceeded: keys, recipients, iterations or nesting.
    Limit,
    /// Compact form cannot hold the object.
    NotCompact,
    /// No key verifies the object, or no key decrypts it.
    NotOpened,
    /// A number that this crate does not know. Only another version of the library gives it.
    Unknown(u32),
}

impl Refusal {
    /// All refusals that this crate knows, in the order of their numbers, which begin at 1.
    const ALL: [Refusal; 17] = [
        Refusal::Usage,
        Refusal::Read,
        Refusal::Write,
        Refusal::Memory,
        Refusal::Random,
        Refusal::Base64,
        Refusal::Json,
        Refusal::Number,
        Refusal::Key,
        Refusal::Form,
        Refusal::Header,
        Refusal::Unsupported,
        Refusal::NoAlgorithm,
        Refusal::KeyDoesNotFit,
        Refusal::Limit,
        Refusal::NotCompact,
        Refusal::NotOpened,
    ];

    /// The number of the refusal, from 1 to 17.
    #[must_use]
    pub const fn number(self) -> u32 {
        match self {
            Refusal::Usage => 1,
            Refusal::Read => 2,
            Refusal::Write => 3,
            Refusal::Memory => 4,
            Refusal::Random => 5,
            Refusal::Base64 => 6,
            Refusal::Json => 7,
            Refusal::Number => 8,
            Refusal::Key => 9,
            Refusal::Form => 10,
            Refusal::Header => 11,
            Refusal::Unsupported => 12,
            Refusal::NoAlgorithm => 13,
            Refusal::KeyDoesNotFit => 14,
            Refusal::Limit => 15,
            Refusal::NotCompact => 16,
            Refusal::NotOpened => 17,
            Refusal::Unknown(number) => number,
        }
    }

    /// Whether it is about this machine or the keys, and not about a token: a service answers 500, and not 401.
    ///
    /// It is right for [`Keys`](crate::Keys) each of which may do what is asked (`uses`). Of a function that reads a text of keys, other refusals
    /// can be about the keys too.
    #[must_use]
    pub const fn is_fault(self) -> bool {
        matches!(self.number(), 0..=5 | 9 | 13 | 18..)
    }

    /// The name of the refusal, such as `NotOpened`.
    #[must_use]
    pub fn name(self) -> &'static str {
        crate::calls::name(self.number())
    }

    /// The result that a status of the library means.
    pub(crate) fn of_status(status: u32) -> Result<(), Refusal> {
        match status {
            0 => Ok(()),
            1..=17 => Err(Refusal::ALL[status as usize - 1]),
            other => Err(Refusal::Unknown(other)),
        }
    }
}

impl fmt::Display for Refusal {
    /// Writes the number, a space and the name, such as `17 NotOpened`.
    fn fmt(&self, out: &mut fmt::Formatter<'_>) -> fmt::Result {
        write!(out, "{} {}", self.number(), self.name())
    }
}

impl fmt::Debug for Refusal {
    /// Writes the same, for a program that ends with it (`unwrap`, or the result of `main`).
    fn fmt(&self, out: &mut fmt::Formatter<'_>) -> fmt::Result {
        fmt::Display::fmt(self, out)
    }
}

impl Error for Refusal {}
