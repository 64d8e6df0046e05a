//! Verifies tokens as a service does: it reads its keys once, and tells bad tokens from faults of its own. `cargo run --example tokens`

use lakhdzeva::{Keys, Refusal};

/// A key that both sides have. A service reads it from a file.
const KEY: &[u8] =
    br#"{"kty":"oct","alg":"HS256","k":"AAECAwQFBgcICQoLDA0ODxAREhMUFRYXGBkaGxwdHh8"}"#;
const TOKEN: &str = "eyJhbGciOiJIUzI1NiJ9.aGVsbG8.0gXhFJy9tQ17YbeQRi9CaFNoGQWTk66Alugo1jcHzKo";

fn main() -> Result<(), Refusal> {
    // Broken keys end the program here, and not at each token.
    let keys = Keys::new(KEY)?;
    for token in [TOKEN.to_string(), TOKEN.replace("cHzKo", "AAAAA")] {
        match keys.verify(token.as_bytes()) {
            Ok(payload) => println!("200: {}", String::from_utf8_lossy(&payload)),
            Err(refusal) if refusal.is_fault() => println!("500: {refusal}"),
            Err(refusal) => println!("401: {refusal}"),
        }
    }
    Ok(())
}
