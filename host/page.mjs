// Arboricx in a page: the tables of one match in the memory of arboricx.wasm, and moves on them. It works in node too; the caller
// brings the bytes of the module and of a bundle:
//
//     import { open } from "./page.mjs";
//     const bytes = async (path) => new Uint8Array(await (await fetch(path)).arrayBuffer()); // node: fs.promises.readFile
//     const match = await open(await bytes("../lib/wasm32/arboricx.wasm"));
//     const loaded = match.load(await bytes("opponents.arboricx"));
//     if (loaded.number === 0) console.log(match.move(loaded.exports[0], 0, loaded.nodes, 1000));
//
// Numbers, slots, fuel and used counts are those of include/arboricx.h, and what is no such number throws a RangeError. Each match has a
// memory of its own, with room for SLOTS slots and JOBS jobs: 32 and 33 say that they do not do.

const MAX_FILE = 65536, MAX_EXPORTS = 32, SLOT_WORDS = 2, JOB_WORDS = 3, SLOTS = 4096, JOBS = 1024, BASE = 0;
const WORDS_LEN = BigInt(BASE + SLOT_WORDS * SLOTS), JOBS_LEN = BigInt(JOB_WORDS * JOBS), EXPORTS_LEN = BigInt(MAX_EXPORTS);

export async function open(wasm) {
    const { exports: arboricx } = (await WebAssembly.instantiate(wasm)).instance;

    // The module's own memory, its stack, ends at __heap_base. What is lent lies after it, one thing after the other.
    let end = arboricx.__heap_base.value;
    const place = (bytes) => {
        end += (bytes + 7) & ~7; // rounded up, so that all are aligned
        return end - ((bytes + 7) & ~7);
    };
    const file = place(MAX_FILE + 1); // one byte more than a bundle has, so that a longer file is refused
    const words = place(4 * Number(WORDS_LEN)), jobs = place(4 * Number(JOBS_LEN));
    const exports = place(4 * MAX_EXPORTS), answer = place(4 * 6);
    arboricx.memory.grow(Math.max(0, Math.ceil((end - arboricx.memory.buffer.byteLength) / 65536)));

    const read = (at, count) => [...new Uint32Array(arboricx.memory.buffer, at, count)];
    const lend = (bundle) => {
        const lent = bundle.subarray(0, MAX_FILE + 1);
        new Uint8Array(arboricx.memory.buffer).set(lent, file);
        return BigInt(lent.length); // lengths have 64 bits, which are BigInt here
    };
    const whole = (...numbers) => {
        for (const n of numbers) if (!Number.isInteger(n) || n < -(2 ** 31) || n >= 2 ** 32) throw new RangeError(`${n} is no number for a call`);
        return numbers;
    };
    const moved = ([number, slot, x, steps, used, jobs]) => ({ number, slot, x, steps, used, jobs });

    return {
        version: arboricx.arboricx_version(),
        // 0 for a sound bundle, or what is wrong with it.
        check: (bundle) => arboricx.arboricx_check(file, lend(bundle)),

        // The number, how many nodes the bundle has, which is the used count for the first move, and the slots of its exports.
        load(bundle) {
            const length = lend(bundle);
            arboricx.arboricx_load(file, length, words, WORDS_LEN, BASE, exports, EXPORTS_LEN, answer);
            const [number, nodes, count] = read(answer, 3);
            return { number, nodes, exports: read(exports, count) };
        },

        // Slot f, the opponent, applied to slot x. 0: the result is in `slot`. 31: it thinks on, by carryOn, unless another move
        // came between: there is one job table.
        move(f, x, used, fuel) {
            arboricx.arboricx_run(words, WORDS_LEN, BASE, ...whole(f, x, used, fuel), jobs, JOBS_LEN, answer);
            return moved(read(answer, 6));
        },
        carryOn(stop, fuel) {
            arboricx.arboricx_carry_on(words, WORDS_LEN, BASE, ...whole(stop.slot, stop.x, stop.used, stop.jobs, stop.steps, fuel),
                jobs, JOBS_LEN, answer);
            return moved(read(answer, 6));
        },
    };
}
