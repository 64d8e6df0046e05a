// The claims of a JWT (RFC 7519) whose signature was verified. Copy the function, and call it after `verify`:
//
//     const claims = claimsOf(token, lakhdzeva.verify(keys, token), Date.now() / 1000, { issuer: "login", audience: "api" });
"use strict";

// Parsers in other languages refuse more lists in each other than some hundred or thousand.
const MOST_DEPTH = 500;
const USUAL = /\\[^u]|\\u[dD][89abAB]..\\u[dD][c-fC-F]../g, STRANGE = /\\u(?:[dD][89a-fA-F]|0000[^"]*"\s*:)/;
// The kinds of the options.
const KINDS = { issuer: "string", audience: "string", typ: "string", leeway: "number" };

// The claims in the payload of this token, which was verified, at this time in seconds since 1970. Both are Buffers, and the token has not changed
// since then: copy one of shared memory before you verify it. If a claim is wrong, an Error has its name as `claim`: form, claims, typ, exp, nbf,
// iss or aud. `exp` must be there. An `aud` must not be there unless an audience is expected.
// An option that is misspelt, of another kind, empty or undefined is a TypeError, as is a time that is not finite: it is the caller's fault.
function claimsOf(token, payload, now, expected = {}) {
    const refuse = (claim) => {
        throw Object.assign(new Error(claim), { claim });
    };
    // Only letters of ASCII count: toLowerCase makes k of the sign of Kelvin, too.
    const mediaType = (text) => typeof text === "string" && text.replace(/[A-Z]/g, (it) => it.toLowerCase()).replace(/^application\//, "");
    // A getter of a class is in an object too, but for..in passes over it.
    const names = new Set(Object.keys(KINDS).filter((name) => name in expected));
    for (const name in expected) names.add(name);
    for (const name of names) {
        const value = expected[name], kind = Object.hasOwn(KINDS, name) && KINDS[name];
        const isFull = (name === "typ" ? mediaType(value) : value) !== "";
        const fits = kind === "number" ? Number.isFinite(value) && value >= 0 : typeof value === kind && isFull;
        if (!fits) throw new TypeError(`${name}: ${kind ? `it must be a ${kind} that is not empty or negative` : "there is no such option"}`);
    }
    if (!Number.isFinite(now)) throw new TypeError("now must be a finite number");
    const { issuer, audience, typ, leeway = 0 } = expected;
    const parts = /^([A-Za-z0-9_-]+)\.[A-Za-z0-9_-]+\.[A-Za-z0-9_-]+$/.exec(String(token)) ?? refuse("form");
    let claims;
    try {
        const text = new TextDecoder("utf-8", { fatal: true, ignoreBOM: true }).decode(payload);
        claims = JSON.parse(text);
        // Without pairs and escapes such as \\ and \", what is left has no half of a surrogate pair and no zero in a name: parsers differ on both.
        if (STRANGE.test(text.replace(USUAL, ""))) refuse("claims");
        // JSON.parse makes Infinity of 1e400, and takes lists of any depth. Outside of texts each digit is of a number.
        let depth = 0;
        for (const [part] of text.replace(/"(?:[^"\\]|\\.)*"/g, "").matchAll(/[[\]{}]|\d[\d.eE+-]*/g)) {
            depth += { "[": 1, "{": 1, "]": -1, "}": -1 }[part] ?? 0;
            if (depth > MOST_DEPTH || Number(part) === Infinity) refuse("claims");
        }
    } catch {
        refuse("claims");
    }
    if (typeof claims !== "object" || claims === null || Array.isArray(claims)) refuse("claims");
    if (typ !== undefined && mediaType(JSON.parse(Buffer.from(parts[1], "base64url")).typ) !== mediaType(typ)) refuse("typ");
    if (typeof claims.exp !== "number" || !(now - leeway < claims.exp)) refuse("exp");
    if (Object.hasOwn(claims, "nbf") && (typeof claims.nbf !== "number" || !(now + leeway >= claims.nbf))) refuse("nbf");
    if (issuer !== undefined && claims.iss !== issuer) refuse("iss");
    if (audience === undefined) {
        if (Object.hasOwn(claims, "aud")) refuse("aud");
    } else {
        const all = Array.isArray(claims.aud) ? claims.aud : [claims.aud];
        if (!all.includes(audience) || !all.every((name) => typeof name === "string")) refuse("aud");
    }
    return claims;
}

module.exports = { claimsOf };
