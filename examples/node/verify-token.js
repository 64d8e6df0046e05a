#!/usr/bin/env node
// Verifies a token with the keys in a file, and writes its payload: node verify-token.js KEYS TOKEN, where both are files. The head of lakhdzeva.c
// says how to make lakhdzeva.node. Whether the claims in the payload are valid now, and for whom, is for your program to decide.
"use strict";
const fs = require("node:fs");
const lakhdzeva = require("./lakhdzeva.node");

// The refusals that are about this machine or the keys. With keys that were judged, each other one is about the token.
const FAULTS = ["Usage", "Read", "Write", "Memory", "Random", "Key", "NoAlgorithm"];
// LAKHDZEVA_MAY_VERIFY in lakhdzeva.h.
const MAY_VERIFY = 2;

// Broken keys end the program here, and so does a key of a set that may not verify.
function readKeys(file) {
    const keys = fs.readFileSync(file);
    const at = lakhdzeva.judgeKeys(keys).findIndex((uses) => !(uses & MAY_VERIFY));
    if (at >= 0) throw new Error(`the key at position ${at} may not verify signatures`);
    return keys;
}

function main([keysFile, tokenFile]) {
    let keys;
    try {
        keys = readKeys(keysFile);
    } catch (fault) {
        console.error(`verify-token: ${keysFile}: ${fault.message}`);
        return process.exit(1);
    }
    try {
        process.stdout.write(lakhdzeva.verify(keys, fs.readFileSync(tokenFile)));
    } catch (error) {
        if (!error.number || error.number > 17 || FAULTS.includes(error.code)) throw error;
        console.error(`verify-token: ${error.message}`);
        process.exitCode = 1;
    }
}

main(process.argv.slice(2));
