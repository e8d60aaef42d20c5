// tests/wasm.mjs: the modules for wasm32 in node: no imports; the stored inputs of the programs `take` and `put`, judged and committed, come to their
// stored outputs; callers are found; what stands behind a row is answered; what a set reports, the office's module reads; what it joins, the set takes; and what it
// proposes between two stores of either set makes the one the other. A vehicle's module has its own sizes, its export is taken by the hand-held's as far as it
// fits, and no sum binds its texts, as it does a hand-held's. The desk's answers and shows what the hand-held's does, until its area is full.
import { readFileSync } from "node:fs";
import { fileURLToPath } from "node:url";

const root = fileURLToPath(new URL("..", import.meta.url));
const exportsOf = (name) => {
    const module = new WebAssembly.Module(readFileSync(`${root}/target/archive/wasm32/${name}.wasm`));
    if (WebAssembly.Module.imports(module).length > 0) throw new Error(`${name} imports something`);
    return new WebAssembly.Instance(module).exports;
};

// A set's module and its buffers, one behind the other from __heap_base on: pointers are numbers, lengths and packed answers BigInts.
function setOf(module, prefix, store, buffer) {
    const exports = exportsOf(module);
    const sizes = { store, message: 65536, reply: 20, buffer, digits: 19 };
    let end = exports.__heap_base.value;
    const at = {};
    for (const [name, size] of Object.entries(sizes)) {
        at[name] = end;
        end += size;
    }
    exports.memory.grow(Math.max(0, Math.ceil((end - exports.memory.buffer.byteLength) / 65536)));
    const lent = (name, length = sizes[name]) => [at[name], BigInt(length)];
    const call = (name, ...words) => exports[prefix + name](...words);
    return { call, lent, at, sizes, prefix, memory: new Uint8Array(exports.memory.buffer) };
}
const handheld = setOf("otap_handheld", "otap_", 24576, 4096);
const vehicle = setOf("otap_vehicle", "otap_vehicle_", 49152, 8192);
const { call, lent, at, memory } = handheld;

// As the programs do: judges, and commits where that comes to 0. Judging leaves the store, and committing then says and writes the same.
function take(message, set = handheld) {
    set.memory.set(message, set.at.message);
    const ask = (name) => set.call(name, ...set.lent("message", message.length), ...set.lent("store"), ...set.lent("reply"));
    const copy = (name) => Buffer.from(set.memory.subarray(set.at[name], set.at[name] + set.sizes[name]));
    const before = copy("store");
    const judged = ask("judge");
    same("the store that was judged", copy("store"), before);
    if ((judged & 0xffn) !== 0n) return judged;
    const reply = copy("reply");
    if (ask("commit") !== judged) throw new Error("another answer than judging");
    same("the reply", copy("reply"), reply);
    return judged;
}

// Records: length and kind, two bytes each, low byte first, then the message; a cut one is the last.
function* records(input) {
    for (let from = 0; from < input.length;) {
        const length = from + 4 <= input.length ? input.readUInt16LE(from) : Infinity;
        const message = input.subarray(from + 4, from + 4 + length);
        if (message.length !== length) return yield "cut";
        yield { kind: input.readUInt16LE(from + 2), message };
        from += 4 + length;
    }
}

function takePrints(input) {
    const lines = [];
    for (const record of records(input)) {
        const answer = record === "cut" ? 0n : take(record.message);
        lines.push(record === "cut" ? "cut\n" : `${record.kind} ${answer & 0xffn} ${(answer >> 8n) & 0xffn}\n`);
    }
    return Buffer.from(lines.join(""));
}

// A part of a set's store, as a request.
function exported(part, set = handheld) {
    const answer = set.call("export", part, ...set.lent("store"), ...set.lent("buffer"));
    return Buffer.from(set.memory.subarray(set.at.buffer, set.at.buffer + Number((answer >> 16n) & 0xffffn)));
}

function putWrites() {
    const parts = [];
    for (let part = 1; part <= 10; part++) {
        const request = exported(part);
        parts.push(Buffer.from([request.length & 255, request.length >> 8, part, 0]), request);
    }
    return Buffer.concat(parts);
}

// Who is calling, packed: the number, bit 8 where a row has it, the row from bit 16 on.
function lineOf(idType, digits) {
    memory.set(digits, at.digits);
    return call("line_of", idType, ...lent("digits", digits.length), ...lent("store"));
}

// The digits behind a row of lines, at the start of a buffer of 18 bytes.
function digitsOf(table, index) {
    const answer = call("entry_digits", table, index, ...lent("store"), ...lent("digits", 18));
    return (answer & 0xffn) === 0n ? [...memory.subarray(at.digits, at.digits + Number(answer >> 8n))].join("") : `refused ${answer}`;
}

// The message of this index of the report to these types; the answer without one is a refusal.
function report(types, index) {
    const query = [2, 2, 0, 0, 8, 0, 0x0a, types.length, ...types];
    memory.set(query, at.message);
    const answer = call("report", ...lent("message", query.length), index, ...lent("store"), ...lent("buffer"));
    return { answer, message: memory.slice(at.buffer, at.buffer + Number((answer >> 16n) & 0xffffn)) };
}

// The office's module with these messages or stores in its memory: its functions, their places as they are lent, a buffer of so many bytes behind them, and what an
// answer says was written there.
function officeWith(size, ...messages) {
    const office = exportsOf("otap_office");
    let from = office.__heap_base.value;
    office.memory.grow(Math.ceil(messages.reduce((sum, message) => sum + message.length, size) / 65536));
    const bytes = new Uint8Array(office.memory.buffer);
    const places = messages.map((message) => {
        bytes.set(message, from);
        from += message.length;
        return [from - message.length, BigInt(message.length)];
    });
    const written = (answer) => ({ answer, message: bytes.slice(from, from + Number((answer >> 16n) & 0xffffn)) });
    return { office, places, buffer: [from, BigInt(size)], written };
}

// What the office reads of a message: the answer, then the entry and the places of each parameter.
function officeReads(message) {
    const { office, places } = officeWith(0, message);
    const ask = (name, ...place) => office[name](...places[0], ...place);
    const read = [ask("otap_read_report")];
    for (let place = 10; place < message.length; place = Number(read[read.length - 1] & 0xffffn)) {
        read.push(ask("otap_report_entry", place), ask("otap_report_places", place));
    }
    return read;
}

// The two requests under one header; the answer without one is a refusal.
function officeJoins(first, second) {
    const { office, places, buffer, written } = officeWith(4096, first, second);
    return written(office.otap_join(...places[0], ...places[1], ...buffer));
}

// What the office says of a request between two stores of a set, and what it proposes.
function officeUpdates(set, held, wanted, request) {
    const { office, places, buffer, written } = officeWith(set.sizes.buffer, held, wanted, request);
    const checked = office[`${set.prefix}check_update`](...places[0], ...places[1], ...places[2]);
    return { checked, ...written(office[`${set.prefix}propose`](...places[0], ...places[1], ...buffer)) };
}

// A set's store without a line, and with it: the line is an update, its part is proposed, and makes the one the other; between equal stores nothing is proposed.
function updates(set, line) {
    const store = () => Buffer.from(set.memory.subarray(set.at.store, set.at.store + set.sizes.store));
    const held = store();
    take(line, set);
    const wanted = store();
    const [update, equal, back] = [[held, wanted], [wanted, wanted], [wanted, held]].map((pair) => officeUpdates(set, ...pair, line));
    same("a proposal", Buffer.from(update.message), exported(1, set));
    set.memory.set(held, set.at.store);
    if ((take(update.message, set) & 0xffn) !== 0n) throw new Error("taking a proposal");
    same("the tables behind the hash", store().subarray(11), wanted.subarray(11));
    return [update.checked, equal.checked, equal.answer, back.checked, officeUpdates(set, held.subarray(1), wanted, line).checked].join();
}

function same(what, got, wanted) {
    if (!got.equals(wanted)) throw new Error(`${what}: not the bytes that it must be`);
}

const stored = (program, part) => readFileSync(`${root}/crates/${program}/${part}`);
const start = () => call("start", ...lent("store"));
if (start() !== 0) throw new Error("start");
same("take", takePrints(stored("take", "stdin")), stored("take", "stdout"));
start();
takePrints(stored("put", "stdin"));
same("put", putWrites(), stored("put", "stdout"));
start();
take([2, 2, 0, 0, 8, 4, 8, 1, 0xca, 0, 10, 0x42, 2, 0x3f, 0, 0x23, 0x45, 0xff, 0]); // PABX 3, then PABX 2345
const asked = [lineOf(1, [3]), lineOf(1, [2, 3, 4, 5]), lineOf(0, [3]), lineOf(1, [2, 3, 4]), lineOf(1, []), lineOf(1, Array(19).fill(2))];
if (asked.join() !== [0x100, 0x10100, 0, 0, 20, 20].join()) throw new Error(`who is calling: ${asked}`);
// The same lines behind their rows; then a member group of priority 2, two channels, the key to individual 100001, NZI 15 and NP 806, LAI ABC.
take([2, 2, 0, 0, 8, 4, 8, 5, 0xd1, 0, 8, 0x70, 0x83, 0x10, 0, 2, 0, 0xce, 0, 7, 0xc0, 2, 0x0f, 0x12, 0x80,
    0xcb, 0, 6, 0x20, 0x10, 0, 1, 0xcd, 0, 5, 0x07, 0xe4, 0xc0, 0xcf, 0, 5, 0xab, 0xc8, 0x60]);
const behind = [[1, 1], [4, 3], [4, 2], [9, 0]].map(([table, index]) => call("entry", table, index, ...lent("store")));
const fixed = ["emergency_key", "home_numbers", "system_code"].map((name) => call(name, ...lent("store")));
const tuned = [0, 1, 2].map((position) => call("channel", position, ...lent("store")));
const wanted = [1n << 32n, 0x100002n << 8n | 2n << 35n | 3n << 37n, 17n, 17n, 0x100001n << 8n | 1n << 34n, 15n << 8n | 806n << 17n,
    0xabcn << 8n | 8n << 20n | 1n << 24n | 1n << 26n, 241n << 8n, 640n << 8n, 17n, "3", "2345", "refused 17"];
const found = [...behind, ...fixed, ...tuned, digitsOf(1, 0), digitsOf(1, 1), digitsOf(8, 0)];
if (found.join() !== wanted.join()) throw new Error(`behind a row: ${found}`);
// The two lines and the key in one message, and what the office reads of it.
const told = report([0xca, 0xcb], 1);
same("a report", Buffer.from(told.message), Buffer.from([2, 2, 0, 0x1c, 8, 7, 0x0b, 1, 1, 3, 0x8a, 0, 0x80, 0, 0x3f, 0, 0,
    0x8a, 0, 0x80, 1, 0x23, 0x45, 0xff, 0, 0, 0x8b, 0, 0x20, 0x10, 0, 1]));
if (told.answer !== (1n << 8n | 32n << 16n) || report([0xca], 2).answer !== 16n) throw new Error("the answers of reports");
const office = officeReads(told.message);
const lines = [0x03010100n, 0x10can, 17n | 15n << 16n | 14n << 40n | 1n << 56n, 0x110can, 26n | 24n << 16n | 21n << 40n | 4n << 56n];
const key = [0x100001n << 32n | 0x4cbn, 32n];
if (office.join() !== [...lines, ...key].join()) throw new Error(`the office reads ${office}`);
// Two channels and a line under one header, which the set takes; with an FF item the second is at fault.
const [channels, line] = [[2, 2, 0, 0, 8, 0xf7, 8, 1, 0xce, 0, 7, 0xc0, 2, 0x0f, 0x12, 0x80], [2, 2, 0, 0, 8, 7, 8, 1, 0xca, 0, 7, 0x42, 1, 0x4f, 0, 0]];
const joined = officeJoins(channels, line);
same("a joined request", Buffer.from(joined.message), Buffer.from([2, 2, 0, 0x14, 8, 7, 8, 2, ...channels.slice(8), ...line.slice(8)]));
const unjoined = officeJoins(channels, [2, 2, 0, 0, 8, 7, 8, 1, 0xff, 0, 3, 0]).answer;
if (joined.answer !== 24n << 16n || unjoined !== (4n | 1n << 8n | 1n << 32n)) throw new Error(`joining: ${joined.answer}, ${unjoined}`);
if ((take(joined.message) & 0xffn) !== 0n || lineOf(1, [4]) !== 0x20100n) throw new Error("taking the joined request");
if (call("transmit", 640) !== 3560000n << 8n) throw new Error("transmit");
// PABX 5: an update, also between equal stores, where nothing is proposed; none back; and no store.
const fifth = [2, 2, 0, 0, 8, 7, 8, 1, 0xca, 0, 7, 0x42, 1, 0x5f, 0, 0];
vehicle.call("start", ...vehicle.lent("store"));
const updated = [handheld, vehicle].map((set) => updates(set, fifth));
if (updated.some((answers) => answers !== "256,256,19,0,11")) throw new Error(`updates: ${updated}`);
// 32 lines of a vehicle, all ten parts taken by a hand-held; then one more, with which the first part is refused: no room for setting 34.
const linesOf = (first, count) => [2, 2, 0, 0, 8, 4, 8, 1, 0xca, 0, 4 + 3 * count, 0x40, count,
    ...Array.from({ length: count }, (_, each) => [Math.floor((first + each) / 10) * 16 + (first + each) % 10, 0xff, 0]).flat()];
const handOn = () => Array.from({ length: 10 }, (_, each) => take(exported(each + 1, vehicle)) & 0xffffn);
const starts = [24576, 49152].map((length) => vehicle.call("start", ...vehicle.lent("store", length)));
if (starts.join() !== "11,0") throw new Error(`a vehicle's start: ${starts}`);
take(linesOf(10, 32), vehicle);
if (handOn().some((answer) => answer !== 0n)) throw new Error("a vehicle's export");
for (let part = 1; part <= 10; part++) same("both exports", exported(part), exported(part, vehicle));
take(linesOf(42, 1), vehicle);
if (handOn()[0] !== (2n | 34n << 8n)) throw new Error("an export that does not fit");
if (vehicle.call("export", 1, ...vehicle.lent("store"), ...vehicle.lent("buffer", 8191)) !== 15n) throw new Error("a short buffer");
// 64 quick texts of 23 units and 36 status texts of 16 fill a hand-held's area: an empty text has room then, and one unit more has only in a vehicle.
const textsOf = (type, first, count, units) => {
    const entries = Array.from({ length: count }, (_, each) => [first + each, ...Array(units).fill(0x78), 0]).flat();
    const fields = type === 0xcc ? [0x40 + count, ...entries] : [0x40, count, ...entries];
    return [2, 2, 0, 0, 8, 4, 8, 1, type, (fields.length + 2) >> 8, (fields.length + 2) & 255, ...fields];
};
const filling = [textsOf(0xcc, 0, 63, 23), textsOf(0xcc, 63, 1, 23), textsOf(0xd0, 32, 36, 16), textsOf(0xd0, 68, 1, 0), textsOf(0xd0, 69, 1, 1)];
const filled = [handheld, vehicle].map((set) => {
    set.call("start", ...set.lent("store"));
    return filling.map((message) => take(message, set) & 0xffffn);
});
if (filled.join() !== "0,0,0,0,258,0,0,0,0,0") throw new Error(`texts that fill a hand-held: ${filled}`);
// A desk and a hand-held that are sent the same: the same answers and rows, and at last 18, where the hand-held goes on.
const desk = setOf("otap_desk", "otap_plain_", 32768, 64);
const deskTakes = (message) => {
    desk.memory.set(message, desk.at.message);
    return desk.call("take", ...desk.lent("message", message.length), ...desk.lent("store"), ...desk.lent("reply"));
};
const shown = (set, scratch, table, row) => {
    const part = set.call("row_part", table, row, ...set.lent("store"), ...set.lent("buffer", scratch));
    const from = set.at[(part & 1n) === 1n ? "buffer" : "store"] + Number((part >> 16n) & 0xffffn);
    return part === 0n ? "none" : Buffer.from(set.memory.subarray(from, from + Number((part >> 32n) & 0xffffn))).toString("hex");
};
const started = [32768, 32767].map((length) => desk.call("start", ...desk.lent("store", length)));
if (started.join() !== "0,11") throw new Error(`a desk's start: ${started}`);
start();
for (const message of [line, channels, linesOf(10, 31), linesOf(42, 2), ...filling, fifth.slice(1)]) {
    const [one, other] = [deskTakes(message), take(message)];
    if (one !== other) throw new Error(`a desk's answer ${one}, a hand-held's ${other}`);
}
for (const [table, row] of [[1, 0], [1, 31], [1, 32], [2, 0], [2, 63], [2, 64], [3, 32], [3, 68], [3, 69], [6, 0], [9, 0]]) {
    const [one, other] = [shown(desk, 64, table, row), shown(handheld, 36, table, row)];
    if (one !== other) throw new Error(`row ${row} of table ${table}: a desk's ${one}, a hand-held's ${other}`);
}
if (desk.call("row_number", 1, 0, ...desk.lent("store"), ...desk.lent("buffer", 63)) !== 15) throw new Error("a desk's short scratch");
let last = 0n;
while ((last & 0xffn) === 0n) last = deskTakes(textsOf(0xcc, 0, 63, 23));
if (last !== 18n || (take(textsOf(0xcc, 0, 63, 23)) & 0xffn) !== 0n) throw new Error(`a full area: ${last}`);
console.log("no imports; take and put, judged and committed, as stored; callers are found, what stands behind a row, what is reported and read, joined and proposed;" +
    " a hand-held takes a vehicle's export where it fits, and texts up to the last unit;" +
    " a desk answers and shows the same until its area is full");
