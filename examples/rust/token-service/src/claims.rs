//! The claims of a JWT (RFC 7519) whose signature was verified.

use lakhdzeva::{format_signed_detached, Form};
use serde_json::{Map, Value};

/// What the claims of a token must be. `None` expects nothing, but an `aud` that is not expected refuses the token. An empty text is refused: it
/// comes of a setting that is missing, and must not mean that nothing is expected.
#[derive(Default)]
pub struct Expected<'a> {
    pub issuer: Option<&'a str>,
    pub audience: Option<&'a str>,
    pub typ: Option<&'a str>,
    /// Seconds by which the clocks may differ.
    pub leeway: f64,
}

/// The octets of a base64url text. The library decodes it, as the payload of an object that nobody signed.
fn octets_of(text: &[u8]) -> Option<Vec<u8>> {
    let object = [b"eyJhbGciOiJIUzI1NiJ9.", text, b".AAAA"].concat();
    Some(format_signed_detached(&object, None, Form::Compact).ok()?.1)
}

/// A media type without its usual beginning, in small letters.
fn media_type(text: &str) -> String {
    let text = text.to_ascii_lowercase();
    text.strip_prefix("application/").map(str::to_string).unwrap_or(text)
}

/// Whether no name in this JSON has a zero octet, on which parsers differ. Without the escapes \\ and \" each second quote ends a text.
fn has_plain_names(json: &[u8]) -> bool {
    let json = String::from_utf8_lossy(json).replace(r"\\", "").replace("\\\"", "");
    let parts: Vec<&str> = json.split('"').collect();
    parts.windows(2).skip(1).step_by(2).all(|it| !it[0].contains("\\u0000") || !it[1].trim_start().starts_with(':'))
}

/// Whether a token can be what the caller expects.
fn is_meant(expected: &Expected, now: f64) -> bool {
    let texts = [expected.issuer.map(str::to_string), expected.audience.map(str::to_string), expected.typ.map(media_type)];
    texts.iter().flatten().all(|text| !text.is_empty()) && now.is_finite() && expected.leeway.is_finite() && expected.leeway >= 0.0
}

/// The claims in the payload of this token, which was verified, at this time in seconds since 1970. If a claim is wrong, the error names it: form,
/// claims, typ, exp, nbf, iss or aud. `exp` must be there. The error is `expected`, for each token, if the caller is at fault: an expected text is
/// empty (a type is empty too if it has `application/` alone), the leeway is negative, or a time is not finite.
pub fn claims_of(token: &[u8], payload: &[u8], expected: &Expected, now: f64) -> Result<Map<String, Value>, &'static str> {
    if !is_meant(expected, now) {
        return Err("expected");
    }
    let is_digit = |octet: &u8| octet.is_ascii_alphanumeric() || b"-_".contains(octet);
    let parts: Vec<&[u8]> = token.split(|octet| *octet == b'.').collect();
    if parts.len() != 3 || !parts.iter().all(|part| !part.is_empty() && part.iter().all(is_digit)) {
        return Err("form");
    }
    // serde_json refuses half a surrogate pair, on which parsers differ too.
    let claims: Map<String, Value> = serde_json::from_slice(payload).map_err(|_| "claims")?;
    if !has_plain_names(payload) {
        return Err("claims");
    }
    if let Some(typ) = expected.typ {
        let header: Option<Value> = octets_of(parts[0]).and_then(|octets| serde_json::from_slice(&octets).ok());
        let named = header.as_ref().and_then(|header| header["typ"].as_str());
        if named.map(media_type) != Some(media_type(typ)) {
            return Err("typ");
        }
    }
    match claims.get("exp").and_then(Value::as_f64) {
        Some(ends) if now - expected.leeway < ends => (),
        _ => return Err("exp"),
    }
    if let Some(claim) = claims.get("nbf") {
        if !claim.as_f64().is_some_and(|begins| now + expected.leeway >= begins) {
            return Err("nbf");
        }
    }
    if expected.issuer.is_some() && claims.get("iss").and_then(Value::as_str) != expected.issuer {
        return Err("iss");
    }
    let named: Vec<Option<&str>> = match claims.get("aud") {
        None => Vec::new(),
        Some(Value::Array(names)) => names.iter().map(Value::as_str).collect(),
        Some(name) => vec![name.as_str()],
    };
    let good = match expected.audience {
        None => !claims.contains_key("aud"),
        Some(_) => named.contains(&expected.audience) && !named.contains(&None),
    };
    if !good {
        return Err("aud");
    }
    Ok(claims)
}
