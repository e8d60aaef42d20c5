// vectors.mjs: holds engine.js over the WebAssembly modules to a file of calls, each with what it must come to.
//   node web/tests/vectors.mjs FOLDER [--vehicle] [--page web/otap.html]
// FOLDER/calls has a line for each call, `# start` before each fresh set; bytes in hex, `-` for none. Prints the first difference and ends with 1.
// web/tests/vectors has a folder for each kind of set, which rust/tests/src/vectors.rs writes.
import { readFileSync } from "node:fs";
import { Desk, Office, RadioSet, SET_KINDS } from "../parts/engine.js";
import { modulesOf } from "./modules.mjs";

const TABLES = { line: 1, quick: 2, status: 3, group: 4, individual: 5, "group-contact": 6, "individual-contact": 7, "line-slot": 8 };
const FILL = 0x5a;
const hex = (bytes) => Buffer.from(bytes).toString("hex");
const filled = (length) => hex(new Uint8Array(length).fill(FILL));

export class Differs extends Error {}

function need(what, wanted, got) {
    const [one, other] = [wanted, got].map((value) => JSON.stringify(value));
    if (one !== other) throw new Differs(`${what}\n  wanted ${one.slice(0, 600)}\n  got    ${other.slice(0, 600)}`);
}

// What a call wrote into a buffer: so many bytes, and neither those behind them in the buffer nor those behind the buffer.
function needWritten(what, memory, name, length) {
    const whole = memory.whole(name);
    need(`${what}: the buffer past its length`, filled(whole.length - length), hex(whole.subarray(length)));
}

// Fields as name=number with commas between; a refusal has `-`, and every field of it is 0.
function needFields(what, wanted, got) {
    const names = Object.keys(got).sort();
    const words = wanted === "-" ? names.map((name) => `${name}=0`) : wanted.split(",").sort();
    need(what, words, names.map((name) => `${name}=${Number(got[name])}`));
}

// Texts as node's own decoder has them.
function needText(units, text) {
    need("its text", new TextDecoder("utf-16be", { ignoreBOM: true }).decode(units), text);
}

// The bytes of a store in one number, FNV-1a of 32 bits.
const sumOf = (bytes) => bytes.reduce((sum, byte) => Math.imul(sum ^ byte, 0x01000193) >>> 0, 0x811c9dc5);

const answered = ({ number, failed, send, reboot, reply }) => [number, failed, Number(send), Number(reboot), hex(reply)];

// One set, and beside it the office and a desk, with buffers full of a byte that no call may leave changed by chance.
class Held {
    constructor(modules, kind) {
        this.kind = kind;
        this.set = new RadioSet(modules, kind);
        this.office = new Office(modules);
        this.desk = new Desk(modules);
        for (const { memory } of [this.set, this.office, this.desk]) memory.fill = FILL;
    }

    start() {
        this.set.load(new Uint8Array(SET_KINDS[this.kind].storeBytes).fill(0xa5));
        need("start", 0, this.set.start());
        this.desk.load(new Uint8Array(32768).fill(0xa5));
        need("plain start", 0, this.desk.start());
    }

    message(what, object, call, data) {
        const answer = object[call](data);
        needWritten(what, object.memory, "reply", answer.length);
        need(`${what}: its packed number`, answer.number, Number(answer.packed & 0xffn));
        return answered(answer);
    }

    take(data, ...wanted) {
        need("answer", wanted, this.message("commit", this.set, "commit", data));
    }

    judge(data, ...wanted) {
        const before = hex(this.set.store());
        need("judge's answer", wanted, this.message("judge", this.set, "judge", data));
        need("store after judge", before, hex(this.set.store()));
    }

    plain(data, ...wanted) {
        need("plain answer", wanted, this.message("plain", this.desk, "take", data));
    }

    export(part, number, request) {
        const got = this.set.exportPart(part);
        need("export", [number, request], [got.number, hex(got.bytes)]);
        needWritten("export", this.set.memory, "buffer", got.bytes.length);
    }

    row(what, object, table, row, number, part) {
        need(`${what} number`, number, object.rowNumber(TABLES[table], row));
        needWritten(`${what} number`, object.memory, "scratch", 0);
        const got = object.row(TABLES[table], row);
        need(`${what} part`, [number === 0, part], [got !== null, got ? hex(got.units) : ""]);
        needWritten(`${what} part`, object.memory, "scratch", got && got.inScratch ? got.units.length : 0);
        if (got) needText(got.units, got.text);
        return got;
    }

    screen(table, row, number, where, part) {
        const got = this.row("row", this.set, table, row, number, part);
        if (part !== "") need("row source", where, got.inScratch ? "scratch" : "store");
    }

    plainrow(table, row, number, part) {
        this.row("plain row", this.desk, table, row, number, part);
    }

    counts(number, lines, channels) {
        const got = this.set.counts();
        need("counts", [number, lines, channels], [got.number, got.lines, got.channels]);
        need("isStore", number === 0, this.set.isStore());
    }

    lookup(idType, digits, number, row) {
        const got = this.set.lineOf(idType, [...digits]);
        need("line_of", [number, row !== null, row || 0], [got.number, got.found, got.row]);
        if (digits.every((digit) => digit < 10)) need("line_of by a string", got, this.set.lineOf(idType, digits.join("")));
    }

    report(index, query, number, total, message) {
        const got = this.set.report(query, index);
        need("report", [number, number === 0 ? total : 0, message], [got.number, got.total, hex(got.bytes)]);
        needWritten("report", this.set.memory, "buffer", got.bytes.length);
    }

    read(message, number, total, index, entries, unknown) {
        const got = this.office.readReport(message, this.kind);
        this.lastRead = got;
        const known = got.entries.filter((entry) => !entry.unknown);
        const other = got.entries.filter((entry) => entry.unknown).map((entry) => entry.type);
        need("read_report", [number, total, index, entries + (unknown === null ? 0 : 1)], [got.number, got.total, got.index, got.count]);
        need("the entries read", [entries, unknown === null ? [] : [unknown]], [known.length, other]);
        const end = got.entries.length > 0 ? got.entries[got.entries.length - 1].next : 10;
        if (number === 0) need("the byte behind the last entry", message.length, end);
    }

    // A parameter of the message that was read last.
    item(place, at, next, type, unknown, fields, units, digits, hash) {
        const { place: gotAt, next: gotNext, type: gotType, unknown: isUnknown, units: bytes, text, digits: number, hash: kept, ...got } =
            this.lastRead.entries[place];
        need("item", [at, next, type, unknown], [gotAt, gotNext, gotType, Number(isUnknown)]);
        if (fields === "-") need("item: no fields", [], Object.keys(got));
        else needFields("item", fields, got);
        need("its units", units, bytes === null ? "none" : hex(bytes) || "-");
        if (bytes) needText(bytes, text);
        need("its digits", digits, number === null ? "none" : hex(Uint8Array.from(number, Number)));
        need("its hash", hash, kept === null ? "none" : `${kept.code}:${hex(kept.bytes) || "-"}`);
    }

    entry(table, index, number, fields) {
        const { number: got, ...values } = this.set.entry(table, index);
        need("entry", number, got);
        needFields("entry", fields, values);
    }

    digits(table, index, number, digits) {
        const got = this.set.entryDigits(table, index);
        need("entry_digits", [number, digits], [got.number, hex(Uint8Array.from(got.digits, Number))]);
        needWritten("entry_digits", this.set.memory, "digits", got.digits.length);
    }

    channel(position, number, channel) {
        need("channel", { number, channel }, this.set.channel(position));
    }

    fixed(name, number, fields) {
        const { number: got, ...values } = this.set[name]();
        need(name, number, got);
        needFields(name, fields, values);
    }

    convert(name, value, number, result) {
        need(name, { number, value: result }, this.set[name](value));
    }

    join(first, second, number, failed, atFault, request) {
        const got = this.office.join(first, second, this.kind);
        need("join", [number, failed, atFault, request], [got.number, got.failed, Number(got.secondAtFault), hex(got.bytes)]);
        needWritten("join", this.office.memory, "buffer", got.bytes.length);
    }

    store(sum) {
        need("the store's bytes", sum, sumOf(this.set.store()));
    }

    // The first store is the one now, the second what taking the request leaves.
    check(request, number, yes) {
        this.first = this.set.store();
        this.set.commit(request);
        this.second = this.set.store();
        this.set.load(this.first);
        const got = this.office.checkUpdate(this.kind, this.first, this.second, request);
        need("check_update", [number, yes], [got.number, Number(got.yes)]);
    }

    propose(number, request) {
        const got = this.office.propose(this.kind, this.set.store(), this.second);
        need("propose", [number, request], [got.number, hex(got.bytes)]);
        needWritten("propose", this.office.memory, "buffer", got.bytes.length);
    }
}

// The words of a line: b bytes that are lent, h bytes that are wanted, n a number, s a word or none, w a word, o a number or none.
export const SHAPES = {
    take: "bnnnnh", judge: "bnnnnh", plain: "bnnnnh", export: "nnh", screen: "snnsh", plainrow: "snnh", counts: "nnn", lookup: "nbno",
    report: "nbnnh", read: "bnnnno", check: "bnn", propose: "nh", item: "nnnnnwwww", entry: "nnnw", digits: "nnnh", channel: "nnn", fixed: "wnw",
    convert: "wnnn", join: "bbnnnh", store: "n",
};
const READ = {
    b: (word) => new Uint8Array(word === "-" ? 0 : Buffer.from(word, "hex")), h: (word) => (word === "-" ? "" : word), n: Number,
    s: (word) => (word === "-" ? null : word), w: (word) => word, o: (word) => (word === "-" ? null : Number(word)),
};

function held(line, at, one) {
    const [kind, ...words] = line.split(/\s+/);
    if (!SHAPES[kind] || words.length !== SHAPES[kind].length) throw new Differs(`calls, line ${at}: no call of this form`);
    try {
        one[kind](...words.map((word, place) => READ[SHAPES[kind][place]](word)));
    } catch (error) {
        throw error instanceof Differs ? new Differs(`calls, line ${at}: ${kind} ${error.message}`) : error;
    }
}

export function holdTo(text, modules, kind) {
    const one = new Held(modules, kind);
    let done = 0;
    for (const [at, line] of text.trimEnd().split("\n").entries()) {
        if (line.startsWith("# start")) one.start();
        if (line.startsWith("#")) continue;
        held(line.trim(), at + 1, one);
        done += 1;
    }
    return done;
}

function main(words) {
    const page = words.includes("--page") ? words.splice(words.indexOf("--page"), 2)[1] : null;
    const kind = words.includes("--vehicle") ? "vehicle" : "handheld";
    const folder = words.find((word) => !word.startsWith("--"));
    try {
        console.log(`calls: ${holdTo(readFileSync(`${folder}/calls`, "utf8"), modulesOf(page), kind)} as they should be`);
    } catch (error) {
        if (!(error instanceof Differs)) throw error;
        console.log(`differs: ${error.message}`);
        process.exitCode = 1;
    }
}

if (process.argv[1] === new URL(import.meta.url).pathname) main(process.argv.slice(2));
