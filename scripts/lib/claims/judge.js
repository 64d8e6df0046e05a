// Does what judge.py does, by claims.js. NODE_MODULE is lakhdzeva.node.
"use strict";
const fs = require("node:fs");
const lakhdzeva = require(process.argv[2]);
const { claimsOf } = require("../../../examples/node/claims.js");

const keys = Buffer.from(process.argv[3]);
for (const line of fs.readFileSync(0, "utf8").split("\n").slice(0, -1)) {
    const [now, leeway, ...rest] = line.split("\t"), token = Buffer.from(rest.pop());
    const given = ["issuer", "audience", "typ"].map((name, at) => [name, rest[at]]).filter(([, text]) => text !== "-");
    try {
        claimsOf(token, lakhdzeva.verify(keys, token), Number(now), { ...Object.fromEntries(given), leeway: Number(leeway) });
        console.log("yes");
    } catch (error) {
        const isCallers = error instanceof TypeError;
        if (!error.claim && !error.number && !isCallers) throw error;
        console.log(isCallers ? "expected" : error.claim ?? `${error.number} ${error.code}`);
    }
}
