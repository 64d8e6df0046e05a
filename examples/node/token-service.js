#!/usr/bin/env node
// A web service that answers only requests with a valid token (RFC 6750), as ../python/token-service.py does, which says how to try it:
//
//     node token-service.js KEYS PORT ISSUER AUDIENCE
//
// It starts if every key in the file may verify signatures. If the file changes, it reads it again, and keeps the old keys if a new one may not
// verify. The head of lakhdzeva.c says how to make lakhdzeva.node. It needs Node.js 18.3 or later. Put a server in front that speaks TLS.
"use strict";
const fs = require("node:fs");
const http = require("node:http");
const { claimsOf } = require("./claims.js");
const lakhdzeva = require("./lakhdzeva.node");

// LAKHDZEVA_MAY_VERIFY in lakhdzeva.h, and the seconds by which the clocks may differ.
const MAY_VERIFY = 2, LEEWAY = 30;
// The milliseconds for a whole request with its body, and until the next one begins. Node looks each second whose time is over.
const TIMEOUTS = { headersTimeout: 10000, requestTimeout: 10000, keepAliveTimeout: 10000, connectionsCheckingInterval: 1000 };
// A longer header is not looked at, since the work grows with it. The scheme may be in capitals. A JWT is in compact form.
const MOST_LENGTH = 4096, CREDENTIALS = /^bearer +([A-Za-z0-9_.-]+)$/i;
const BAD_TOKEN = [401, 'Bearer error="invalid_token"', { error: "no valid token" }];

// Writes a line, to the log if no other descriptor is named. One that cannot be written is lost. The streams of `console` would end the service.
function log(line, descriptor = 2) {
    try {
        fs.writeSync(descriptor, `${line}\n`);
    } catch {
        // Nobody reads it, or the disk is full.
    }
}

// Whether an error of the library is about this machine or the keys, which were judged before.
const isFault = ({ number }) => number <= 5 || number === 9 || number === 13 || number > 17;

// The keys in a file, which are read again when the file changes.
class KeyFile {
    constructor(name) {
        this.name = name;
        this.read();
    }

    // What tells a file and its content from others. A writer can keep the length and the other time, but not the time of the last change.
    stateOf({ dev, ino, size, mtimeNs, ctimeNs }) {
        return `${dev} ${ino} ${size} ${mtimeNs} ${ctimeNs}`;
    }

    // Reads the keys, if the file is not the one that was read.
    read() {
        if (this.stateOf(fs.statSync(this.name, { bigint: true })) === this.seen) return;
        // Without O_NONBLOCK a pipe would wait for a writer.
        const file = fs.openSync(this.name, fs.constants.O_RDONLY | fs.constants.O_NONBLOCK);
        try {
            const found = fs.fstatSync(file, { bigint: true }), keys = found.isFile() && fs.readFileSync(file);
            this.seen = this.stateOf(found);
            if (!keys) throw new Error("it is no regular file");
            const all = lakhdzeva.judgeKeys(keys), at = all.findIndex((uses) => !(uses & MAY_VERIFY));
            if (at >= 0) throw new Error(`the key at position ${at} may not verify signatures`);
            this.keys = keys;
            log(`token-service: ${this.name}: keys: ${all.length}`);
        } catch (fault) {
            // A file that could not be read is tried again at the next request, and one with broken keys is not.
            if (fault.code === "Memory") this.seen = null;
            throw fault;
        } finally {
            fs.closeSync(file);
        }
    }

    // The keys that the file has now, or had before it was broken.
    now() {
        try {
            this.read();
        } catch (fault) {
            log(`token-service: ${this.name} is not read again: ${fault.message}`);
        }
        return this.keys;
    }
}

// The status, the challenge and the body of the answer.
function answer(file, header, expected) {
    if (!header) return [401, "Bearer", { error: "no token" }];
    const found = header.length <= MOST_LENGTH && CREDENTIALS.exec(header);
    if (!found) return BAD_TOKEN;
    const token = Buffer.from(found[1]);
    try {
        const claims = claimsOf(token, lakhdzeva.verify(file.now(), token), Date.now() / 1000, expected);
        if (typeof claims.sub !== "string") throw Object.assign(new Error("sub"), { claim: "sub" });
        return [200, null, { you: claims.sub }];
    } catch (error) {
        // The keys or this machine may be at fault. The sender need not know why.
        if (!error.claim && (!error.number || isFault(error))) throw error;
        log(`token-service: a bad token: ${error.claim ?? error.message}`);
        return BAD_TOKEN;
    }
}

function main([name, port, issuer, audience]) {
    if (audience === undefined) throw new Error("usage: token-service.js KEYS PORT ISSUER AUDIENCE");
    if (!issuer || !audience) throw new Error("the issuer and the audience must not be empty");
    let file;
    try {
        file = new KeyFile(name);
    } catch (fault) {
        throw new Error(`${name}: ${fault.message}`);
    }
    const expected = { issuer, audience, leeway: LEEWAY };
    const server = http.createServer(TIMEOUTS, (request, response) => {
        // Several headers make no credentials together, even if one is empty.
        const header = (request.headersDistinct.authorization ?? []).join(", ");
        let status = 500, challenge = null, body = { error: "the service has a fault" };
        try {
            [status, challenge, body] = answer(file, header, expected);
        } catch (fault) {
            log(`token-service: ${fault.message}`);
        }
        if (challenge) response.setHeader("WWW-Authenticate", challenge);
        response.writeHead(status, { "Content-Type": "application/json" });
        response.end(JSON.stringify(body));
    });
    server.listen(Number(port), "127.0.0.1", 1024, () => log(`listening on port ${server.address().port}`, 1));
}

try {
    main(process.argv.slice(2));
} catch (fault) {
    // Broken keys end the service here, and not at each request.
    log(`token-service: ${fault.message}`);
    process.exitCode = 1;
}
