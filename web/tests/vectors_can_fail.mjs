// vectors_can_fail.mjs: in a line of each kind of call every wanted word is changed, one at a time: each change is seen. And the program ends with 1.
import assert from "node:assert";
import { spawnSync } from "node:child_process";
import { mkdtempSync, readFileSync, rmSync, writeFileSync } from "node:fs";
import { tmpdir } from "node:os";
import { fileURLToPath } from "node:url";
import { modulesOf } from "./modules.mjs";
import { Differs, holdTo, SHAPES } from "./vectors.mjs";

// How many words of a line are lent; those behind them are wanted.
const LENT = {
    take: 1, judge: 1, plain: 1, export: 1, screen: 2, plainrow: 2, counts: 0, lookup: 2, report: 2, read: 1, check: 1, propose: 0, item: 1, entry: 2,
    digits: 2, channel: 1, fixed: 1, convert: 2, join: 2, store: 0,
};
const modules = modulesOf();
const here = (path) => fileURLToPath(new URL(path, import.meta.url));

// Another word of the same form: the last nibble or digit is one more; of none some, of a word another.
function changed(word) {
    if (word === "-") return "17";
    if (word === "store" || word === "scratch") return word === "store" ? "scratch" : "store";
    if (!/[0-9a-f]$/.test(word) || word === "none") return "7";
    return word.slice(0, -1) + ((parseInt(word[word.length - 1], 16) + 1) % (/[a-f]/.test(word) ? 16 : 10)).toString(16);
}

// From the last start to this line, with this word of it changed.
function withChange(lines, at, word) {
    const start = lines.slice(0, at).lastIndexOf("# start");
    const words = lines[at].split(" ");
    words[word] = changed(words[word]);
    return [...lines.slice(start, at), words.join(" ")].join("\n");
}

function isSeen(text, kind) {
    try {
        holdTo(text, modules, kind);
    } catch (error) {
        if (!(error instanceof Differs)) throw error;
        return true;
    }
    return false;
}

// The longest line of a call: it has something of every word.
function longest(lines, name) {
    const own = lines.map((line, at) => [line.startsWith(`${name} `) ? line.length : 0, at]);
    return own.reduce((best, one) => (one[0] > best[0] ? one : best));
}

function changesSeen(kind) {
    const lines = readFileSync(here(`vectors/${kind}/calls`), "utf8").trimEnd().split("\n");
    let seen = 0;
    for (const [name, lent] of Object.entries(LENT)) {
        const [length, at] = longest(lines, name);
        assert(length > 0 || (kind === "vehicle" && name.startsWith("plain")), `${kind}: no line of ${name}`);
        for (let word = 1 + lent; length > 0 && word < lines[at].split(" ").length; word++) {
            assert(isSeen(withChange(lines, at, word), kind), `${kind}: word ${word} of ${lines[at]} may be another`);
            seen += 1;
        }
    }
    return seen;
}

// The program itself, on a copy with one nibble changed.
function programEnds() {
    const folder = mkdtempSync(`${tmpdir()}/calls-`);
    const text = readFileSync(here("vectors/vehicle/calls"), "utf8");
    writeFileSync(`${folder}/calls`, text.replace(/^(counts 0 )(\d)/m, (_, before, lines) => before + ((Number(lines) + 1) % 10)));
    const ran = spawnSync(process.execPath, [here("vectors.mjs"), folder, "--vehicle"], { encoding: "utf8" });
    rmSync(folder, { recursive: true });
    assert.equal(ran.status, 1);
    assert.match(ran.stdout, /^differs: calls, line \d+: counts/);
}

assert.deepEqual(Object.keys(LENT).sort(), Object.keys(SHAPES).sort());
const seen = ["handheld", "vehicle"].map(changesSeen);
programEnds();
console.log(`each of ${seen[0]} and ${seen[1]} changed words is seen, and the program ends with 1`);
