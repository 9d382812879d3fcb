// Answers requests, one line of JSON each, about modules; an answer is a line of JSON too.
//
//   {"validate": PATH}                  whether this engine accepts the module
//   {"before": [ONE, ...], "after": PATH}
//       whether the exports of some modules behave in one module of all, or in another order, as they do in each alone. ONE is
//       {"path": .., "imports": [..], "calls": [..], "states": [..]}: what stands for each import in turn, the exported functions
//       of numbers, each with its name and the types of its parameters, and the names of exported memories and globals.
//
// An instance's imports are told by their places, since two may have one name. Functions that are imported note that they are
// called, and with what. What is seen of an export is its results, its trap, and these notes; at the end exported globals of
// numbers, and memories. Where a call takes too long, or the stack ends, the rest of its module is left out on both sides.
'use strict';
const crypto = require('crypto'), fs = require('fs'), readline = require('readline'), vm = require('vm');

// Milliseconds for a call, and for what comes with an instance.
const PATIENCE = 300, MORE_PATIENCE = 5000;
const MOST_CALLS = 300, MOST_MEMORY = 1 << 26;
const context = vm.createContext({});
const script = new vm.Script('act()');
// The rows of arguments: what each type of number is given.
const GIVEN = [{ i32: 0, i64: 0n, f32: 0, f64: 0 }, { i32: 1, i64: 1n, f32: 1, f64: 1 }, { i32: 7, i64: 7n, f32: 2.5, f64: 2.5 },
    { i32: -1, i64: -1n, f32: -0, f64: -0 }, { i32: 0x7fffffff, i64: 0x7fffffffffffffffn, f32: 3e38, f64: NaN }];

function within(act, timeout = PATIENCE) {
    context.act = act;
    return script.runInContext(context, { timeout });
}

const isLate = (error) => error.code === 'ERR_SCRIPT_EXECUTION_TIMEOUT';

function shown(value) {
    if (Array.isArray(value)) return '[' + value.map(shown).join(' ') + ']';
    if (typeof value === 'bigint') return value + 'n';
    if (typeof value === 'number') return Object.is(value, -0) ? '-0' : String(value);
    return value === undefined || value === null ? String(value) : typeof value;
}

// What stands for imports; none where one can't be made here.
function values(imports, label, notes) {
    const zero = { i32: 0, i64: 0n, f32: 0, f64: 0 };
    return imports.map((one, place) => {
        if (one.kind === 'function') {
            const results = one.results.map((type) => type in zero ? zero[type] : null);
            return (...given) => {
                notes.push(`${label}:${place}(${given.map(shown).join(' ')})`);
                return results.length === 0 ? undefined : results.length === 1 ? results[0] : results;
            };
        }
        if (one.kind === 'memory') return new WebAssembly.Memory(one.type);
        if (one.kind === 'table') return new WebAssembly.Table(one.type);
        if (one.kind === 'tag') return new WebAssembly.Tag({ parameters: one.parameters });
        return new WebAssembly.Global(one.type, one.type.value in zero ? zero[one.type.value] : null);
    });
}

function instance(path, own) {
    const module = new WebAssembly.Module(fs.readFileSync(path));
    let next = 0;
    const inner = new Proxy({}, { get: () => own[next++] });
    return within(() => new WebAssembly.Instance(module, new Proxy({}, { get: () => inner })), MORE_PATIENCE);
}

class Stopped extends Error {}

function said(act, notes) {
    notes.length = 0;
    let what;
    try {
        what = shown(within(act));
    } catch (error) {
        if (isLate(error) || error instanceof RangeError) throw new Stopped(error.message);
        what = error instanceof WebAssembly.Exception ? 'an exception' : `${error.constructor.name}: ${error.message}`;
    }
    return [what, ...notes].join('; ');
}

// What is seen of the exports of one module in an instance.
function seen(one, exports, notes) {
    const found = [];
    try {
        for (const { name, params } of one.calls.slice(0, MOST_CALLS)) {
            for (const row of params.length ? GIVEN.slice(0, one.calls.length > 60 ? 3 : 5) : [{}]) {
                found.push(`${name}: ${said(() => exports[name](...params.map((type) => row[type])), notes)}`);
            }
        }
        for (const name of one.states) {
            const state = exports[name];
            let what = 'not shown';
            if (state instanceof WebAssembly.Memory && state.buffer.byteLength <= MOST_MEMORY) {
                what = crypto.createHash('sha1').update(new Uint8Array(state.buffer)).digest('hex');
            } else if (state instanceof WebAssembly.Global) {
                what = said(() => state.value, notes);
            }
            found.push(`${name}: ${what}`);
        }
    } catch (error) {
        if (!(error instanceof Stopped)) throw error;
        found.push(null);
    }
    return found;
}

// An instance of a module, or why there is none.
function instanceOf(path, made) {
    try {
        return { instance: instance(path, made()) };
    } catch (error) {
        return { none: isLate(error) ? 'it takes too long' : `${error.constructor.name}: ${error.message}`, late: isLate(error) };
    }
}

function behave(request) {
    const notes = [];
    const of = (one, label) => values(one.imports, label, notes);
    try {
        request.before.forEach(of);
    } catch (error) {
        return { unseen: `an import is not made here: ${error.message}` };
    }
    const alone = request.before.map((one, label) => instanceOf(one.path, () => of(one, label)));
    const together = instanceOf(request.after, () => request.before.flatMap(of));
    const none = alone.find((one) => !one.instance);
    if (none) return together.instance && !none.late ? { wrong: `an instance, where there was none: ${none.none}` } : { unseen: `no instance: ${none.none}` };
    if (!together.instance) return together.late ? { unseen: together.none } : { wrong: `no instance: ${together.none}` };
    let calls = 0, states = 0;
    for (const [label, one] of request.before.entries()) {
        const before = seen(one, alone[label].instance.exports, notes), after = seen(one, together.instance.exports, notes);
        for (let at = 0; at < Math.max(before.length, after.length); at++) {
            if (before[at] === null || after[at] === null) break;
            if (before[at] !== after[at]) return { wrong: `of module ${label + 1} was '${before[at]}', and is '${after[at]}'` };
            calls++;
        }
        states += one.states.length;
    }
    return { calls, states };
}

function answer(line) {
    try {
        const request = JSON.parse(line);
        if (request.validate) return { valid: WebAssembly.validate(fs.readFileSync(request.validate)) };
        return behave(request);
    } catch (error) {
        return { unseen: `${error.constructor.name}: ${error.message}` };
    }
}

readline.createInterface({ input: process.stdin }).on('line', (line) => process.stdout.write(JSON.stringify(answer(line)) + '\n'));
