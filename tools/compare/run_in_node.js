// Runs the calls of test modules in node's engine, for run_modules.py.
//
// Standard input: JSON, a list of {hex, calls}. Standard output: JSON, for each
// a list of what went wrong, empty if nothing did.
//
// A call is `EXPORT ARGUMENT ... = RESULT ...`, `global EXPORT = VALUE`,
// `exports = NAME ...` for the names in their order, or `instantiate = trap`.
// Values: 5 (i32), 5n (i64), 5.0 (f64), 5.0f (f32), inf, nan; the one result
// `trap` stands for a trap.
'use strict';

const environment = () => ({
    env: {
        twice: x => 2 * x,
        thrice: x => 3 * x,
        seven: new WebAssembly.Global({ value: 'i32', mutable: false }, 7),
        big: new WebAssembly.Global({ value: 'i64', mutable: false }, 123456789012n),
        memory: new WebAssembly.Memory({ initial: 1 }),
        table: new WebAssembly.Table({ initial: 10, element: 'anyfunc' }),
    },
});

function value(text) {
    const plain = text.replace(/f$/, match => text.startsWith('inf') || text.startsWith('-inf') ? match : '');
    if (/^-?\d+n$/.test(text)) return BigInt.asIntN(64, BigInt(text.slice(0, -1)));
    if (/^-?\d+$/.test(text)) return Number(text) | 0;
    const number = { 'nan': NaN, 'inf': Infinity, '-inf': -Infinity, 'inff': Infinity, '-inff': -Infinity }[text];
    return number !== undefined ? number : text.endsWith('f') ? Math.fround(Number(plain)) : Number(plain);
}

function show(some) {
    return some.map(one => typeof one === 'bigint' ? `${one}n` : Object.is(one, -0) ? '-0' : String(one)).join(' ');
}

// What is wrong with a call, or null.
function check(instance, line) {
    const [left, right] = line.split('=').map(part => part.trim().split(/\s+/).filter(word => word));
    const [name, ...given] = left;
    if (name === 'exports') {
        const names = Object.keys(instance.exports);
        return names.join(' ') === right.join(' ') ? null : `${line}: ${names.join(' ')}`;
    }
    let results;
    try {
        if (name === 'global') {
            results = [instance.exports[given[0]].value];
        } else {
            const said = instance.exports[name](...given.map(value));
            results = said === undefined ? [] : Array.isArray(said) ? said : [said];
        }
    } catch (error) {
        const trapped = error instanceof WebAssembly.RuntimeError;
        return trapped && right[0] === 'trap' ? null : `${line}: ${error}`;
    }
    const wanted = right[0] === 'trap' ? null : right.map(value);
    const same = wanted && wanted.length === results.length && wanted.every((one, at) => Object.is(one, results[at]));
    return same ? null : `${line}: ${show(results)}`;
}

function run({ hex, calls }) {
    let instance;
    try {
        instance = new WebAssembly.Instance(new WebAssembly.Module(Buffer.from(hex, 'hex')), environment());
    } catch (error) {
        const trapped = error instanceof WebAssembly.RuntimeError;
        return trapped && calls.join() === 'instantiate = trap' ? [] : [`instantiate: ${error}`];
    }
    if (calls.join() === 'instantiate = trap') return ['instantiate = trap: no trap'];
    return calls.map(line => check(instance, line)).filter(wrong => wrong !== null);
}

const given = JSON.parse(require('fs').readFileSync(0, 'utf8'));
console.log(JSON.stringify(given.map(run)));
