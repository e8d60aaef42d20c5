// regions.mjs: the regions join without a gap, and stand where the tables of docs/STORE.md say; what changes and what is used is counted right.
import assert from "node:assert";
import { readFileSync } from "node:fs";
import { RadioSet } from "../parts/engine.js";
import { changedBytes, regionsOf, usedBytes } from "../parts/regions.js";
import { modulesOf } from "./modules.mjs";

const page = readFileSync(new URL("../../docs/STORE.md", import.meta.url), "utf8");
const SIZES = { handheld: 24576, vehicle: 49152, desk: 32768 };
const HEADINGS = { handheld: "## The hand-held's: texts in one area", vehicle: "## The vehicle's: texts in places" };
const PLACES = { handheld: { lines: 32, channels: 64 }, vehicle: { lines: 128, channels: 256 } };

// The rows of a form's table: slots, bytes of a slot, first byte and first slot's byte.
function rowsOfPage(kind) {
    const lines = page.split(HEADINGS[kind])[1].split("\n").filter((line) => line.startsWith("| "));
    const rows = lines.map((line) => line.split("|").map((cell) => cell.trim()));
    const end = rows.findIndex((cells) => cells[1].startsWith("spare"));
    return rows.slice(1, end + 1).map(([, , slots, slotBytes, stated, own]) => {
        const text = own === "the same" ? stated : own;
        const [from, first] = text.match(/\d+/g).map(Number);
        return { slots: PLACES[kind][slots] ?? Number(slots), slotBytes: Number(slotBytes), from, first: first ?? from };
    });
}

function joins(regions, size) {
    const ends = [0, ...regions.map((region) => region.to)];
    return regions.every((region, at) => region.from === ends[at] && region.from <= region.first && region.first <= region.to) && ends.pop() === size;
}

const asPage = (kind) => regionsOf(kind).map(({ slots, slotBytes, from, first }) => ({ slots, slotBytes, from, first }));
for (const kind of Object.keys(SIZES)) {
    assert(joins(regionsOf(kind), SIZES[kind]), `${kind}: a gap`);
    assert(!joins(regionsOf(kind), SIZES[kind] + 1), `${kind}: another size is seen`);
    assert(!joins(regionsOf(kind).slice(1), SIZES[kind]), `${kind}: a missing region is seen`);
}
for (const kind of Object.keys(HEADINGS)) {
    const moved = rowsOfPage(kind).map((row) => ({ ...row, from: row.from + 1 }));
    assert.deepEqual(asPage(kind), rowsOfPage(kind), `${kind}: as docs/STORE.md has it`);
    assert.notDeepEqual(asPage(kind), moved, `${kind}: another byte is seen`);
}
assert.deepEqual(changedBytes([1, 2, 3, 4, 5], [1, 0, 0, 4, 6]), [[1, 3], [4, 5]]);
assert.deepEqual(changedBytes([1, 2], [1, 2]), []);
// The example of docs/STORE.md: the quick text 5 A1, the empty status text 40, the line PSTN 3 with the name Z.
const set = new RadioSet(modulesOf(), "handheld");
const fresh = set.store();
const settings = [[0xcc, 0, 7, 0x41, 5, 0x41, 0x31, 0], [0xd0, 0, 6, 0x40, 1, 40, 0], [0xca, 0, 7, 0x40, 1, 0x3f, 0x5a, 0]];
const taken = set.commit([2, 2, 0, 0, 8, 4, 8, 3, ...settings.flat()]);
const used = usedBytes("handheld", set.store()).filter((region) => region.slots > 0);
assert.equal(taken.number, 0);
const firsts = changedBytes(fresh, set.store()).map(([from, to]) => [from, to - from]);
assert.deepEqual(firsts, [27, 102, 1549, 1552, 1570, 2222, 2255, 2257, 2259].map((from) => [from, 1]));
assert.deepEqual(used.map(({ key, slots, bytes }) => [key, slots, bytes]),
    [["emergencyKey", 1, 4], ["quickTexts", 1, 1], ["statusTexts", 1, 2], ["lines", 1, 21], ["lineOrder", 1, 1], ["texts", 1, 6]]);
assert.deepEqual(usedBytes("handheld", fresh).filter((region) => region.bytes > 0), [{ key: "emergencyKey", slots: 1, bytes: 4 }]);
assert.deepEqual(usedBytes("desk", Uint8Array.of(0, 0, 1, 2, ...new Array(32764).fill(0))).pop(), { key: "requests", slots: 1, bytes: 258 });
fresh[2254] = 0x4e; // a unit whose low byte is 0
assert.equal(usedBytes("handheld", fresh).find((region) => region.key === "texts").bytes, 2);
console.log("regions join, stand as docs/STORE.md says, and are counted");
