// engine.mjs: what no line of vectors says of engine.js: modules that import, bytes of any length, stores that are none, rows that can exist, and an
// area that steps back.
import assert from "node:assert";
import { Desk, loadModules, Office, RadioSet, textOfUnitBytes } from "../parts/engine.js";
import { modulesOf } from "./modules.mjs";

const modules = modulesOf();
const line = (digit) => [2, 2, 0, 0, 8, 4, 8, 1, 0xca, 0, 7, 0x42, 1, digit * 16 + 15, 0x41 + digit, 0];

function modulesStandAlone() {
    // A module of one import, the function "a" of "m".
    const importing = Uint8Array.of(0, 0x61, 0x73, 0x6d, 1, 0, 0, 0, 1, 4, 1, 0x60, 0, 0, 2, 7, 1, 1, 0x6d, 1, 0x61, 0, 0);
    assert.throws(() => loadModules({ desk: importing }), /imports/);
    assert.throws(() => loadModules({ desk: Uint8Array.of(1, 2, 3) }), WebAssembly.CompileError);
}

// Too long is 12 however long it is, and what stands behind the message stays.
function anyLength(kind) {
    const set = new RadioSet(modules, kind);
    const [before, most] = [set.store(), set.messageBytes];
    const sizes = [0, 6, most + 1, 65536, 65537, 1 << 20];
    assert.deepEqual(sizes.map((size) => set.commit(new Uint8Array(size).fill(2)).number), sizes.map(() => 12));
    assert.equal(set.commit(new Uint8Array(most)).number, 13);
    assert.deepEqual(set.store(), before);
    assert.equal(set.commit(line(1)).number, 0);
    assert.deepEqual(set.lineOf(1, "1"), { number: 0, found: true, row: 0 });
    assert.deepEqual(["", "1x", "\u0131", "1".repeat(19)].map((digits) => set.lineOf(1, digits).number), [20, 20, 20, 20]);
}

// Bytes that are no store are 11 everywhere, until a store is loaded or started.
function noStore(kind, size) {
    const set = new RadioSet(modules, kind);
    set.commit(line(2));
    const kept = set.store();
    assert.equal(kept.length, size);
    const others = [0, 24576, 49152, 70000].map((length) => new Uint8Array(length)).filter((bytes) => bytes.length !== size);
    for (const bytes of [kept.slice(1), new Uint8Array(size).fill(1), ...others]) {
        set.load(bytes);
        const numbers = [set.counts().number, set.commit(line(1)).number, set.rowNumber(1, 0), set.exportPart(1).number, set.entry(1, 0).number];
        assert.deepEqual([set.isStore(), set.row(1, 0), ...numbers], [false, null, 11, 11, 11, 11, 11]);
        assert.deepEqual(set.store(), bytes.slice(0, 65536));
    }
    set.load(kept);
    assert.deepEqual([set.isStore(), set.row(1, 0).text], [true, "C"]);
    assert.deepEqual([set.start(), set.isStore(), set.row(1, 0), set.store().length], [0, true, null, size]);
}

// Behind the last row that can exist there is none, and before the first neither.
function rowsEnd(kind, lines) {
    const set = new RadioSet(modules, kind);
    const last = [lines - 1, 63, 127, 15, 15, 63, 63, 15];
    assert.deepEqual(set.tables().map(({ table, first, last: end }) => [table, first, end]), last.map((end, at) => [at + 1, at === 2 ? 32 : 0, end]));
    // The numbers 100, 101 and so on, two digits a byte, without a text.
    const entry = (_, at) => [Math.floor((100 + at) / 100) * 16 + Math.floor(at / 10) % 10, (at % 10) * 16 + 15, 0];
    const fields = [0x40, lines, ...Array.from({ length: lines }, entry).flat()];
    assert.equal(set.commit([2, 2, 0, 0, 8, 4, 8, 1, 0xca, (fields.length + 2) >> 8, (fields.length + 2) & 255, ...fields]).number, 0);
    assert.deepEqual([lines - 1, lines].map((row) => set.rowNumber(1, row)), [0, 17]);
    assert.deepEqual(set.counts(), { number: 0, lines, channels: 0, freeLines: 0, freeChannels: set.channels });
}

function officeRefuses() {
    const office = new Office(modules);
    const store = new RadioSet(modules, "vehicle").store();
    assert.deepEqual(office.checkUpdate("vehicle", store, store, line(1)), { number: 0, yes: false });
    assert.equal(office.checkUpdate("handheld", store, store, line(1)).number, 11);
    assert.equal(office.propose("vehicle", store, store).number, 19);
    assert.deepEqual(office.readReport(new Uint8Array(100000), "handheld"), { number: 12, total: 0, index: 0, count: 0, entries: [] });
    assert.equal(office.join(new Uint8Array(100000), line(1), "vehicle").number, 12);
}

// A group contact of every flag: the office reads of the report what the set itself answers.
function flagsReported() {
    const [set, office] = [new RadioSet(modules, "handheld"), new Office(modules)];
    const names = ["address", "encryption", "emergency", "priority", "attribute", "broadcast", "ovcm"];
    const seen = new Set();
    for (let flags = 0; flags < 1024; flags++) {
        set.start();
        const body = [0xc8, 0, 0x0c, flags >> 2, (flags & 3) << 6, 1, 0x10, 0, 4, 0, 0x46, 0, 0];
        if (set.commit([2, 2, 0, 0, 8, 7, 8, 1, ...body]).number !== 0 || set.entry(6, 0).number !== 0) continue;
        const [read, own] = [office.readReport(set.report([2, 2, 0, 0, 8, 0, 0x0a, 1, 0xc8], 1).bytes, "handheld").entries[0], set.entry(6, 0)];
        assert.deepEqual(names.map((name) => read[name]), names.map((name) => own[name]));
        seen.add(names.map((name) => Number(own[name])).join());
    }
    assert(seen.size > 40, `${seen.size} kinds of flags`);
}

function deskSteps() {
    const desk = new Desk(modules);
    const areas = [desk.area()];
    for (const digit of [1, 2, 3]) {
        assert.equal(desk.take(line(digit)).number, 0);
        areas.push(desk.area());
    }
    assert.deepEqual([desk.used(), desk.row(1, 2).text], [54, "D"]);
    assert.throws(() => desk.backTo(72), RangeError);
    for (const position of [2, 1, 0]) {
        desk.backTo(18 * position);
        assert.deepEqual(desk.area(), areas[position]);
        assert.deepEqual([desk.used(), desk.rowNumber(1, position)], [18 * position, 17]);
    }
    desk.load(areas[3]);
    assert.equal(desk.row(1, 0).text, "B");
    assert.throws(() => desk.load(new Uint8Array(10)), RangeError);
}

modulesStandAlone();
for (const [kind, size, lines] of [["handheld", 24576, 32], ["vehicle", 49152, 128]]) {
    anyLength(kind);
    noStore(kind, size);
    rowsEnd(kind, lines);
}
officeRefuses();
flagsReported();
deskSteps();
assert.equal(textOfUnitBytes(Uint8Array.of(0x4e, 0x2d, 0xd8, 0x3d, 0xde, 0x80, 0xd8, 0, 0, 0x41, 0xdc, 0)), "\u4e2d\u{1f680}\ufffdA\ufffd");
console.log("modules stand alone, any bytes may be lent, stores that are none are refused, rows end where they must, an area steps back");
