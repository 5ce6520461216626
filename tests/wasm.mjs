// Makes recorded calls (tests/record.h) again on the WebAssembly module, and compares all words of all tables and answers; then
// plays the sample bundle as a page does, by host/page.mjs.
//
//     node tests/wasm.mjs arboricx.wasm RECORD        RECORD may be -, the standard input
//
// Ends with 0 if all agree, 1 at the first difference.
import { readFileSync } from "node:fs";
import { open } from "../host/page.mjs";

const GUARD = 64; // bytes before, between and after what is lent

const [wasm, record] = [readFileSync(process.argv[2]), readFileSync(process.argv[3] === "-" ? 0 : process.argv[3])];
const here = (path) => readFileSync(new URL(`../${path}`, import.meta.url));
const header = here("include/arboricx.h").toString();

function expect(what, got, wanted) {
    if (JSON.stringify(got) === JSON.stringify(wanted)) return;
    console.log(`wasm: ${what}: ${JSON.stringify(got)}, expected is ${JSON.stringify(wanted)}`);
    process.exit(1);
}

// ---- The module: it imports nothing, and exports the functions of the header, its memory, and where that is free

const module = new WebAssembly.Module(wasm);
const declared = [...header.matchAll(/^(?:uint32_t|void) (arboricx_\w+)\(/gm)].map((found) => found[1]);
expect("imports", WebAssembly.Module.imports(module), []);
expect("exports", WebAssembly.Module.exports(module).map((e) => e.name).sort(), [...declared, "__heap_base", "memory"].sort());
const calls = new WebAssembly.Instance(module).exports;
expect("version", calls.arboricx_version(), Number(header.match(/^#define ARBORICX_VERSION (\d+)$/m)[1]));

// ---- The record

let at = 0;
const take = (bytes) => record.subarray(at, at += bytes);
const takeByte = () => take(1)[0];
const takeWord = () => take(4).readUInt32LE();

function takeArgument() {
    const kind = String.fromCharCode(takeByte()), count = takeWord();
    if (kind === "i") return { kind, number: count | 0 };
    return { kind, count, before: take(kind === "t" ? 4 * count : count) };
}

function takeCall() {
    const name = take(takeByte()).toString();
    const lent = Array.from({ length: takeByte() }, takeArgument);
    for (const one of lent) if (one.before) one.after = one.kind === "r" ? one.before : take(one.before.length);
    return { name, lent, number: takeWord() };
}

// ---- Each call again

let memory = Buffer.from(calls.memory.buffer), wanted = Buffer.alloc(memory.length);
const start = calls.__heap_base.value;

// Finds a place for all that is lent, one after the other between guards; answers where it ends.
function place(lent) {
    let end = start + GUARD;
    for (const one of lent.filter((one) => one.before)) {
        one.at = end;
        end = (one.at + one.before.length + GUARD + 7) & ~7;
    }
    if (end > memory.length) {
        calls.memory.grow(Math.ceil((end - memory.length) / 65536));
        memory = Buffer.from(calls.memory.buffer);
        wanted = Buffer.alloc(memory.length);
    }
    return end;
}

// A pointer and its length are two arguments, an answer is one. Lengths have 64 bits.
function argumentsOf(one) {
    if (one.kind === "i") return [one.number];
    return one.kind === "a" ? [one.at] : [one.at, BigInt(one.count)];
}

function differs(index, call, what) {
    const said = call.lent.map((one) => one.kind === "i" ? one.number : `${one.kind}[${one.count}]`).join(", ");
    console.log(`wasm: call ${index}, arboricx_${call.name}(${said}): ${what}`);
    process.exit(1);
}

// Where memory is not as it has to be: in which argument, or beside all of them.
function placeOf(call, at) {
    const index = call.lent.findIndex((one) => one.before && at >= one.at && at < one.at + one.before.length);
    return index < 0 ? "memory that was not lent has changed" : `argument ${index} differs at byte ${at - call.lent[index].at}`;
}

function again(index, call) {
    const end = place(call.lent), guard = 0xa5 ^ (index & 0xff);
    for (const [memoryNow, state] of [[memory, "before"], [wanted, "after"]]) {
        memoryNow.fill(guard, start, end);
        for (const one of call.lent) if (one.before) memoryNow.set(one[state], one.at);
    }
    let number;
    try {
        number = calls[`arboricx_${call.name}`](...call.lent.flatMap(argumentsOf)) ?? 0;
    } catch (trap) {
        differs(index, call, trap.message);
    }
    if (number >>> 0 !== call.number) differs(index, call, `answers ${number >>> 0}, the archive ${call.number}`);
    if (memory.compare(wanted, start, end, start, end) === 0) return;
    for (let i = start; i < end; i++) if (memory[i] !== wanted[i]) differs(index, call, placeOf(call, i));
}

const made = {};
let count = 0;
while (at < record.length) {
    const call = takeCall();
    again(count++, call);
    made[call.name] = (made[call.name] ?? 0) + 1;
}
expect("calls that were made", Object.keys(made).sort().map((name) => `arboricx_${name}`),
    declared.filter((name) => name !== "arboricx_version").sort());
console.log(`wasm: ${count} calls agree: ${Object.entries(made).map(([name, n]) => `${name} ${n}`).join(", ")}`);

// ---- A page

const bundle = new Uint8Array(here("host/opponents.arboricx"));
const match = await open(wasm);
const MAIN = 0, ENDLESS = 2, LEAF = 0;
expect("version of a page", match.version, calls.arboricx_version());
expect("check of the sample", match.check(bundle), 0);
expect("check of a file that is cut", match.check(bundle.subarray(0, 100)) > 0, true);
expect("check of a long file", match.check(new Uint8Array(100000)), 1);
const loaded = match.load(bundle);
expect("load of the sample", [loaded.number, loaded.nodes, loaded.exports.length], [0, 11, 3]);
expect("load of a long file", match.load(new Uint8Array(100000)), { number: 1, nodes: 0, exports: [] });

// Two moves that are done, the second also a step at a time, and one without end: they are those of tests/tool.stdout.
const first = match.move(loaded.exports[MAIN], LEAF, loaded.nodes, 1000);
expect("a move", first, { number: 0, slot: 11, x: 0, steps: 1, used: 12, jobs: 0 });
const second = match.move(first.slot, LEAF, first.used, 1000);
expect("a second move", [second.number, second.steps, second.used], [0, 4, 15]);
let part = match.move(first.slot, LEAF, first.used, 1), turns = 1;
for (; part.number === 31 && turns < 100; turns++) part = match.carryOn(part, 1);
expect("the second move in parts", [turns, part], [4, second]);
const endless = match.carryOn(match.move(loaded.exports[ENDLESS], LEAF, loaded.nodes, 100), 200);
expect("a move without end", [endless.number, endless.steps, endless.used, endless.jobs], [31, 300, 143, 0]);
for (const wrong of [undefined, 2 ** 32, 0.5, NaN, "1"]) {
    let thrown = false;
    try { match.move(wrong, LEAF, loaded.nodes, 1); } catch (error) { thrown = error instanceof RangeError; }
    expect(`a RangeError for ${wrong}`, thrown, true);
}
expect("a slot before the first", match.move(-3, LEAF, loaded.nodes, 1).number, 23);
expect("a slot that is not used", match.move(LEAF, 11, loaded.nodes, 1).number, 23);
console.log("wasm: host/page.mjs plays the sample bundle as the host does");
