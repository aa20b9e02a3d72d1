// Runs the notice for two recipients, prints what it prints, and checks it.
//
// usage: node run.js [MODULE]           notice.wasm beside this file if none is named
'use strict';

const fs = require('fs');
const path = require('path');

const LETTERS = [
    { name: 'Ms Aalto', days: 3, text: 'Dear Ms Aalto, your parcel will wait 3 days at Harbour Street 5.\n' },
    { name: 'Zoë', days: 1, text: 'Dear Zoë, your parcel will wait 1 day at Harbour Street 5.\n' },
];

const file = process.argv[2] || path.join(__dirname, 'notice.wasm');
let printed = [];
const memory = () => Buffer.from(instance.exports.memory.buffer);
const print = (at, length) => printed.push(Buffer.from(memory().subarray(at, at + length)));
const instance = new WebAssembly.Instance(new WebAssembly.Module(fs.readFileSync(file)), { env: { print } });

let wrong = 0;
for (const { name, days, text } of LETTERS) {
    printed = [];
    memory().write(name + '\0', instance.exports.name.value);
    const length = instance.exports.notice(instance.exports.name.value, days);
    const letter = Buffer.concat(printed);
    process.stdout.write(letter);
    if (letter.toString() !== text || length !== letter.length) {
        wrong += 1;
        console.error(`wrong: should be ${JSON.stringify(text)}, ${Buffer.byteLength(text)} bytes, and says ${length}`);
    }
}
process.exitCode = wrong ? 1 : 0;
