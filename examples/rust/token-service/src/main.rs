//! A web service that answers only requests with a valid token (RFC 6750):
//!
//!     cargo run --release -- service.jwk 8080 login api
//!
//! The words are the file of the keys, the port, the issuer and the audience that each token must name. The file has one key, or a set of keys
//! while one key replaces another. The service starts if every key of it may verify signatures. If the file changes, the service reads it again.
//! If one of the new keys may not verify, it says so and keeps the old ones. So write a new file and rename it. A bad token is 401. What is not
//! the sender's fault is 500. It reads no body, and closes after each answer. Put a server in front that speaks TLS.

mod claims;

use claims::{claims_of, Expected};
use lakhdzeva::{Keys, Refusal};
use serde_json::{json, Value};
use std::fs::{self, Metadata, OpenOptions};
use std::io::{self, Read, Write};
use std::net::{TcpListener, TcpStream};
use std::os::unix::fs::{MetadataExt, OpenOptionsExt};
use std::sync::{Arc, Mutex, PoisonError};
use std::time::{Duration, Instant, SystemTime};
use std::{env, process, thread};

/// A longer header is not looked at, since the work grows with it.
const MOST_OCTETS: usize = 4096;
/// The most octets of the head of a request, and the time in which all of it must come.
const MOST_HEAD: usize = 16384;
const DEADLINE: Duration = Duration::from_secs(10);
/// Seconds by which the clocks may differ.
const LEEWAY: f64 = 30.0;
/// The flag of open(2), on Linux for x86-64 and ARM64.
const O_NONBLOCK: i32 = 0o4000;

/// Writes a line to the log. `eprintln!` would panic if nobody reads the log or the disk is full.
fn log(line: &str) {
    let _ = writeln!(io::stderr(), "token-service: {line}");
}

/// The keys in a file, which are read again when the file changes.
struct KeyFile {
    name: String,
    seen: Option<[i64; 7]>,
    keys: Option<Arc<Keys>>,
}

/// What tells a file and its content from others. A writer can keep the length and the other time, but not the time of the last change.
fn state_of(it: &Metadata) -> Option<[i64; 7]> {
    Some([it.dev() as i64, it.ino() as i64, it.size() as i64, it.mtime(), it.mtime_nsec(), it.ctime(), it.ctime_nsec()])
}

/// The keys of this text, if each of them may verify signatures.
fn judged(text: &[u8]) -> Result<Keys, String> {
    let keys = Keys::new(text).map_err(|refusal| refusal.to_string())?;
    if let Some(at) = keys.uses().iter().position(|uses| !uses.verify) {
        return Err(format!("the key at position {at} may not verify signatures"));
    }
    Ok(keys)
}

impl KeyFile {
    /// Reads the keys, if the file is not the one that was read.
    fn read(&mut self) -> Result<(), String> {
        if self.seen == state_of(&fs::metadata(&self.name).map_err(|fault| fault.to_string())?) {
            return Ok(());
        }
        // Without O_NONBLOCK a pipe would wait for a writer.
        let mut file = OpenOptions::new().read(true).custom_flags(O_NONBLOCK).open(&self.name).map_err(|fault| fault.to_string())?;
        let (found, mut text) = (file.metadata().map_err(|fault| fault.to_string())?, Vec::new());
        let keys = if found.is_file() {
            file.read_to_end(&mut text).map_err(|fault| fault.to_string())?;
            judged(&text)
        } else {
            Err("it is no regular file".to_string())
        };
        if keys.as_ref().err() != Some(&Refusal::Memory.to_string()) {
            // A file that could not be read is tried again at the next request, and one with broken keys is not.
            self.seen = state_of(&found);
        }
        let keys = keys?;
        log(&format!("{}: keys: {}", self.name, keys.len()));
        self.keys = Some(Arc::new(keys));
        Ok(())
    }

    /// The keys that the file has now, or had before it was broken.
    fn now(&mut self) -> Option<Arc<Keys>> {
        if let Err(why) = self.read() {
            log(&format!("{} is not read again: {why}", self.name));
        }
        self.keys.clone()
    }
}

struct Service {
    file: Mutex<KeyFile>,
    issuer: String,
    audience: String,
}

/// Why a request has no answer.
enum Problem {
    NoToken,
    BadToken(String),
    Fault(String),
}

impl From<Refusal> for Problem {
    fn from(refusal: Refusal) -> Problem {
        let text = refusal.to_string();
        if refusal.is_fault() { Problem::Fault(text) } else { Problem::BadToken(text) }
    }
}

impl From<&str> for Problem {
    fn from(claim: &str) -> Problem {
        if claim == "expected" { Problem::Fault(claim.to_string()) } else { Problem::BadToken(claim.to_string()) }
    }
}

/// The token of a header. The scheme may be in small letters or capitals (RFC 9110 section 11.1).
fn token_of(header: &str) -> Option<&str> {
    let (scheme, rest) = header.split_once(' ')?;
    let token = rest.trim_start_matches(' ');
    let fits = scheme.eq_ignore_ascii_case("bearer") && !token.is_empty() && header.len() <= MOST_OCTETS;
    (fits && token.bytes().all(|it| it.is_ascii_alphanumeric() || b"-_.".contains(&it))).then_some(token)
}

impl Service {
    /// For whom the token in this header is.
    fn subject(&self, header: Option<&str>) -> Result<String, Problem> {
        let header = header.filter(|header| !header.is_empty()).ok_or(Problem::NoToken)?;
        let token = token_of(header).ok_or("form")?.as_bytes();
        let keys = self.file.lock().unwrap_or_else(PoisonError::into_inner).now();
        let keys = keys.ok_or(Problem::Fault("there are no keys".to_string()))?;
        let payload = keys.verify(token)?;
        let expected = Expected { issuer: Some(&self.issuer), audience: Some(&self.audience), typ: None, leeway: LEEWAY };
        let now = SystemTime::now().duration_since(SystemTime::UNIX_EPOCH);
        let now = now.map_err(|fault| Problem::Fault(fault.to_string()))?.as_secs_f64();
        let claims = claims_of(token, &payload, &expected, now)?;
        Ok(claims.get("sub").and_then(Value::as_str).ok_or("sub")?.to_string())
    }

    fn answer(&self, stream: TcpStream) -> io::Result<()> {
        stream.set_write_timeout(Some(DEADLINE))?;
        let (status, challenge, body) = match self.subject(authorization(&head_of(&stream)?).as_deref()) {
            Ok(subject) => ("200 OK", "", json!({ "you": subject })),
            Err(Problem::NoToken) => ("401 Unauthorized", "WWW-Authenticate: Bearer\r\n", json!({"error": "no token"})),
            Err(Problem::BadToken(why)) => {
                log(&format!("a bad token: {why}"));
                ("401 Unauthorized", "WWW-Authenticate: Bearer error=\"invalid_token\"\r\n", json!({"error": "no valid token"}))
            }
            Err(Problem::Fault(why)) => {
                // The keys or this machine are at fault. The sender need not know why.
                log(&why);
                ("500 Internal Server Error", "", json!({"error": "the service has a fault"}))
            }
        };
        let text = body.to_string();
        let length = text.len();
        let head = format!("HTTP/1.1 {status}\r\n{challenge}Content-Type: application/json\r\nContent-Length: {length}\r\nConnection: close\r\n\r\n");
        (&stream).write_all((head + &text).as_bytes())
    }
}

/// The head of the request, if it comes before the deadline.
fn head_of(mut stream: &TcpStream) -> io::Result<Vec<u8>> {
    let (ends, mut head, mut part) = (Instant::now() + DEADLINE, Vec::new(), [0; 4096]);
    loop {
        // When no time is left, this is an error.
        stream.set_read_timeout(Some(ends.saturating_duration_since(Instant::now())))?;
        let length = stream.read(&mut part)?;
        let looked_at = head.len().saturating_sub(3);
        head.extend_from_slice(&part[..length]);
        if let Some(at) = head[looked_at..].windows(4).position(|it| it == b"\r\n\r\n") {
            head.truncate(looked_at + at);
            return Ok(head);
        }
        if length == 0 || head.len() > MOST_HEAD {
            return Err(io::ErrorKind::InvalidData.into());
        }
    }
}

/// The header Authorization of the request. Of several none is taken, even if one is empty. In a head with a line end that is not CRLF none is
/// taken, since other programs may see other headers there.
fn authorization(head: &[u8]) -> Option<String> {
    let head = String::from_utf8_lossy(head);
    let is_named = |line: &&str| line.split_once(':').is_some_and(|(name, _)| name.eq_ignore_ascii_case("authorization"));
    let found: Vec<&str> = head.split("\r\n").filter(is_named).collect();
    let strange = head.split("\r\n").any(|line| line.contains(['\r', '\n']));
    if found.len() > 1 || strange {
        return Some("several".to_string());
    }
    Some(found.first()?.split_once(':')?.1.trim().to_string())
}

fn main() {
    let words: Vec<String> = env::args().skip(1).collect();
    let [name, port, issuer, audience] = &words[..] else {
        log("usage: token-service KEYS PORT ISSUER AUDIENCE");
        process::exit(1);
    };
    if issuer.is_empty() || audience.is_empty() {
        log("the issuer and the audience must not be empty");
        process::exit(1);
    }
    // Broken keys end the service here, and not at each request.
    let mut file = KeyFile { name: name.clone(), seen: None, keys: None };
    let read = file.read().map_err(|why| format!("{name}: {why}"));
    let listener = read.and_then(|()| TcpListener::bind(format!("127.0.0.1:{port}")).map_err(|fault| format!("port {port}: {fault}")));
    let listener = listener.unwrap_or_else(|why| {
        log(&why);
        process::exit(1);
    });
    // `println!` would panic too.
    let _ = writeln!(io::stdout(), "listening on port {}", listener.local_addr().map_or(0, |at| at.port()));
    let service = Arc::new(Service { file: Mutex::new(file), issuer: issuer.clone(), audience: audience.clone() });
    for stream in listener.incoming() {
        let service = Arc::clone(&service);
        let started = stream.and_then(|stream| thread::Builder::new().spawn(move || service.answer(stream)));
        if let Err(fault) = started {
            // Too many are open, or there is no memory for another thread.
            log(&fault.to_string());
            thread::sleep(Duration::from_millis(20));
        }
    }
}
