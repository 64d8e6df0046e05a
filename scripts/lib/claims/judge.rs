//! Does what judge.py does, by claims.rs.

mod claims;

use claims::{claims_of, Expected};
use lakhdzeva::Keys;

fn answer(keys: &Keys, line: &str) -> String {
    let fields: Vec<&str> = line.split('\t').collect();
    let named = |at: usize| Some(fields[at]).filter(|text| *text != "-");
    let expected = Expected { issuer: named(2), audience: named(3), typ: named(4), leeway: fields[1].parse().unwrap() };
    let token = fields[5].as_bytes();
    match keys.verify(token) {
        Err(refusal) => refusal.to_string(),
        Ok(payload) => match claims_of(token, &payload, &expected, fields[0].parse().unwrap()) {
            Ok(_) => "yes".to_string(),
            Err(wrong) => wrong.to_string(),
        },
    }
}

fn main() {
    let keys = Keys::new(std::env::args().nth(1).unwrap().as_bytes()).unwrap();
    for line in std::io::stdin().lines() {
        println!("{}", answer(&keys, &line.unwrap()));
    }
}
