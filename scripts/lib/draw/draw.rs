//! Does what draw.c does, by the crate.

use lakhdzeva::{encrypt, generate, Form, Refusal};

fn text(answer: Result<String, Refusal>) -> String {
    answer.unwrap_or_else(|refusal| refusal.to_string())
}

fn draw(keys: &str, template: &str) {
    let key = text(generate(br#"{"bytes":100}"#).map(|octets| String::from_utf8(octets).unwrap()));
    let object = text(encrypt(keys.as_bytes(), template.as_bytes(), Form::Json, b"hello"));
    println!("{key}\t{object}");
}

fn main() {
    let words: Vec<String> = std::env::args().collect();
    if words.len() == 3 {
        return draw(&words[1], &words[2]);
    }
    std::thread::scope(|scope| {
        for _ in 0..8 {
            scope.spawn(|| draw(&words[1], &words[2]));
        }
    });
}
