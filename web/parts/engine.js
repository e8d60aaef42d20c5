// engine.js: the four WebAssembly modules of the library as objects, each with an instance of its own and its buffers in the instance's memory.
// Answers are unpacked as include/otap_unpack.h, otap_office.h and otap_desk.h say. Nothing here judges a byte: that is the modules'.

// What a kind of set differs in: include/otap.h and otap_vehicle.h.
export const SET_KINDS = {
    handheld: { prefix: "otap_", storeBytes: 24576, messageBytes: 4096, lines: 32, channels: 64 },
    vehicle: { prefix: "otap_vehicle_", storeBytes: 49152, messageBytes: 8192, lines: 128, channels: 256 },
};

const ENGINE_PAGE = 65536;
const ENGINE_MOST_LENT = 65536;
const ENGINE_REPLY = 20;
const ENGINE_BEHIND = 4; // bytes behind each buffer that no call is lent: who fills buffers sees that they stay
const ENGINE_SCRATCH = 36;
const ENGINE_DIGITS = 18;
const ENGINE_AREA = 32768;
const ENGINE_REPORT_FIRST = 10;

const engineBits = (answer, from, width) => Number((answer >> BigInt(from)) & ((1n << BigInt(width)) - 1n));
const engineBit = (answer, from) => engineBits(answer, from, 1) === 1;
const engineNumber = (answer) => engineBits(answer, 0, 8);

// Compiles the modules {name: bytes}; each has to stand by itself.
export function loadModules(bytes) {
    const modules = {};
    for (const [name, content] of Object.entries(bytes)) {
        modules[name] = new WebAssembly.Module(content);
        if (WebAssembly.Module.imports(modules[name]).length > 0) throw new Error(`the module ${name} imports something`);
    }
    return modules;
}

// 16-bit units, high byte first, as a string: half of a pair that stands alone is U+FFFD.
export function textOfUnitBytes(units) {
    let text = "";
    for (let at = 0; at + 1 < units.length; at += 2) text += String.fromCharCode(units[at] * 256 + units[at + 1]);
    return text.replace(/[\uD800-\uDBFF](?![\uDC00-\uDFFF])|(?<![\uD800-\uDBFF])[\uDC00-\uDFFF]/g, "\uFFFD");
}

// A module's instance and its buffers, one behind the other from __heap_base on. Pointers are numbers; lengths and packed answers are BigInts.
class EngineMemory {
    constructor(module, prefix, rooms) {
        this.exports = new WebAssembly.Instance(module).exports;
        this.prefix = prefix;
        this.fill = 0;
        this.places = {};
        let end = this.exports.__heap_base.value;
        for (const [name, room] of Object.entries(rooms)) {
            this.places[name] = { from: end, room };
            end += room + ENGINE_BEHIND;
        }
        const missing = Math.ceil((end - this.exports.memory.buffer.byteLength) / ENGINE_PAGE);
        if (missing > 0) this.exports.memory.grow(missing);
        this.bytes = new Uint8Array(this.exports.memory.buffer); // after growing, which cuts off older views
    }

    number(name, ...words) {
        return this.exports[this.prefix + name](...words) >>> 0;
    }

    packed(name, ...words) {
        return BigInt.asUintN(64, this.exports[this.prefix + name](...words));
    }

    lend(name, length = this.places[name].room) {
        return [this.places[name].from, BigInt(length)];
    }

    // Puts bytes into a buffer, cut to its room, and lends just these.
    put(name, bytes) {
        const { from, room } = this.places[name];
        const kept = bytes.length > room ? bytes.slice(0, room) : bytes;
        this.bytes.set(kept, from);
        return this.lend(name, kept.length);
    }

    // Fills a buffer that is to be written, and the bytes behind it, and lends it.
    cleared(name) {
        const { from, room } = this.places[name];
        this.bytes.fill(this.fill, from, from + room + ENGINE_BEHIND);
        return this.lend(name);
    }

    copy(name, length, from = 0) {
        return this.bytes.slice(this.places[name].from + from, this.places[name].from + from + length);
    }

    whole(name) {
        return this.copy(name, this.places[name].room + ENGINE_BEHIND);
    }
}

// The answer to a message, with the reply that it says was written.
function engineAnswer(memory, packed) {
    const length = engineBits(packed, 24, 8);
    return {
        number: engineNumber(packed), failed: engineBits(packed, 8, 8), send: engineBit(packed, 16), reboot: engineBit(packed, 17), length, packed,
        reply: memory.copy("reply", length),
    };
}

// What a row shows, of a packed part; null where there is none.
function engineRow(memory, part, store) {
    if (part === 0n) return null;
    const inScratch = engineBit(part, 0);
    const units = memory.copy(inScratch ? "scratch" : store, engineBits(part, 32, 16), engineBits(part, 16, 16));
    return { units, text: textOfUnitBytes(units), inScratch };
}

const engineWritten = (memory, packed) => ({ number: engineNumber(packed), bytes: memory.copy("buffer", engineBits(packed, 16, 16)) });

// Digits as a string or as numbers; what is no digit becomes one that no number has.
function engineDigits(digits) {
    return Uint8Array.from(digits, (digit) => (typeof digit === "number" ? digit : "0123456789".includes(digit) ? Number(digit) : 255));
}

// A set of either kind: its store and its calls.
export class RadioSet {
    constructor(modules, kind) {
        const { prefix, storeBytes, messageBytes, lines, channels } = SET_KINDS[kind];
        Object.assign(this, { kind, storeBytes, messageBytes, lines, channels });
        const most = ENGINE_MOST_LENT;
        const rooms = { store: most, message: most, reply: ENGINE_REPLY, scratch: ENGINE_SCRATCH, buffer: messageBytes, digits: ENGINE_DIGITS };
        this.memory = new EngineMemory(modules[kind], prefix, rooms);
        this.conversions = kind === "handheld" ? this.memory : new EngineMemory(modules.handheld, "otap_", {}); // a vehicle's has none
        this.start();
    }

    // Makes a fresh store, of whatever bytes it had.
    start() {
        this.storeLength = this.storeBytes;
        return this.memory.number("start", ...this.lentStore());
    }

    lentStore() {
        return this.memory.lend("store", this.storeLength);
    }

    store() {
        return this.memory.copy("store", this.storeLength);
    }

    // Any bytes, of any length: calls answer 11 where they are no store.
    load(bytes) {
        this.storeLength = Number(this.memory.put("store", bytes)[1]);
    }

    isStore() {
        return this.counts().number === 0;
    }

    judge(message) {
        return this.answer("judge", message);
    }

    commit(message) {
        return this.answer("commit", message);
    }

    answer(name, message) {
        const lent = [...this.memory.put("message", message), ...this.lentStore(), ...this.memory.cleared("reply")];
        return engineAnswer(this.memory, this.memory.packed(name, ...lent));
    }

    rowNumber(table, index) {
        return this.memory.number("row_number", table, index, ...this.lentStore(), ...this.memory.cleared("scratch"));
    }

    row(table, index) {
        const part = this.memory.packed("row_part", table, index, ...this.lentStore(), ...this.memory.cleared("scratch"));
        return engineRow(this.memory, part, "store");
    }

    entry(table, index) {
        const packed = this.memory.packed("entry", table, index, ...this.lentStore());
        return {
            number: engineNumber(packed), address: engineBits(packed, 8, 24), idType: engineBits(packed, 32, 1), encryption: engineBit(packed, 33),
            emergency: engineBit(packed, 34), priority: engineBits(packed, 35, 2), attribute: engineBits(packed, 37, 2),
            broadcast: engineBit(packed, 39), ovcm: engineBit(packed, 40),
        };
    }

    entryDigits(table, index) {
        const packed = this.memory.packed("entry_digits", table, index, ...this.lentStore(), ...this.memory.cleared("digits"));
        return { number: engineNumber(packed), digits: this.memory.copy("digits", engineBits(packed, 8, 8)).join("") };
    }

    channel(position) {
        const packed = this.memory.packed("channel", position, ...this.lentStore());
        return { number: engineNumber(packed), channel: engineBits(packed, 8, 12) };
    }

    counts() {
        const packed = this.memory.packed("counts", ...this.lentStore());
        const [number, lines, channels] = [engineNumber(packed), engineBits(packed, 16, 16), engineBits(packed, 32, 16)];
        const free = (places, held) => (number === 0 ? places - held : 0);
        return { number, lines, channels, freeLines: free(this.lines, lines), freeChannels: free(this.channels, channels) };
    }

    // Who is calling; digits are a string or numbers.
    lineOf(idType, digits) {
        const packed = this.memory.packed("line_of", idType, ...this.memory.put("message", engineDigits(digits)), ...this.lentStore());
        return { number: engineNumber(packed), found: engineBit(packed, 8), row: engineBits(packed, 16, 16) };
    }

    emergencyKey() {
        const packed = this.memory.packed("emergency_key", ...this.lentStore());
        return {
            number: engineNumber(packed), address: engineBits(packed, 8, 24), current: engineBit(packed, 32), group: engineBit(packed, 33),
            voice: engineBit(packed, 34), status: engineBit(packed, 35), siren: engineBit(packed, 36),
        };
    }

    homeNumbers() {
        const packed = this.memory.packed("home_numbers", ...this.lentStore());
        return { number: engineNumber(packed), nzi: engineBits(packed, 8, 9), np: engineBits(packed, 17, 10) };
    }

    systemCode() {
        const packed = this.memory.packed("system_code", ...this.lentStore());
        return {
            number: engineNumber(packed), lai: engineBits(packed, 8, 12), la: engineBits(packed, 20, 4), roaming: engineBits(packed, 24, 2),
            par: engineBit(packed, 26),
        };
    }

    exportPart(part) {
        return engineWritten(this.memory, this.memory.packed("export", part, ...this.lentStore(), ...this.memory.cleared("buffer")));
    }

    report(query, index) {
        const lent = [...this.memory.put("message", query), index, ...this.lentStore(), ...this.memory.cleared("buffer")];
        const packed = this.memory.packed("report", ...lent);
        return { total: engineBits(packed, 8, 8), ...engineWritten(this.memory, packed) };
    }

    converted(name, value) {
        const packed = this.conversions.packed(name, value);
        return { number: engineNumber(packed), value: engineBits(packed, 8, 32) };
    }

    individualOfDialled(dialled) {
        return this.converted("individual_of_dialled", dialled);
    }

    groupOfDialled(dialled) {
        return this.converted("group_of_dialled", dialled);
    }

    dialledOfIndividual(address) {
        return this.converted("dialled_of_individual", address);
    }

    dialledOfGroup(address) {
        return this.converted("dialled_of_group", address);
    }

    transmit(channel) {
        return this.converted("transmit", channel);
    }

    receive(channel) {
        return this.converted("receive", channel);
    }

    channelOfTransmit(frequency) {
        return this.converted("channel_of_transmit", frequency);
    }

    // The rows that the tables can have: positions, indexes, and codes of the status texts.
    tables() {
        const last = [this.lines - 1, 63, 127, 15, 15, 63, 63, 15];
        return last.map((end, at) => ({ table: at + 1, first: at + 1 === 3 ? 32 : 0, last: end }));
    }
}

// The fields of a report's entry, by the type asked: flags are bits 8 to 15, index or code 16 to 27, the value 32 to 55.
const ENGINE_CALLED = (entry) => ({ index: engineBits(entry, 16, 12), emergency: engineBit(entry, 10), priority: engineBits(entry, 8, 2) });
const ENGINE_REPORTED = {
    0xc8: (entry) => ({
        ...ENGINE_CALLED(entry), address: engineBits(entry, 32, 24), encryption: engineBit(entry, 12), attribute: engineBits(entry, 14, 2),
        broadcast: engineBit(entry, 13), ovcm: engineBit(entry, 11),
    }),
    0xc9: (entry) => ({ ...ENGINE_CALLED(entry), address: engineBits(entry, 32, 24), encryption: engineBit(entry, 11) }),
    0xca: (entry) => ({ ...ENGINE_CALLED(entry), idType: engineBits(entry, 12, 1), encryption: engineBit(entry, 11) }),
    0xcb: (entry) => ({
        address: engineBits(entry, 32, 24), current: engineBit(entry, 12), group: engineBit(entry, 11), voice: engineBit(entry, 10),
        status: engineBit(entry, 9), siren: engineBit(entry, 8),
    }),
    0xcc: (entry) => ({ index: engineBits(entry, 16, 12) }),
    0xcd: (entry) => ({ nzi: engineBits(entry, 47, 9), np: engineBits(entry, 37, 10) }),
    0xce: (entry) => ({ index: engineBits(entry, 16, 12), channel: engineBits(entry, 32, 24) }),
    0xcf: (entry) => ({ lai: engineBits(entry, 44, 12), la: engineBits(entry, 40, 4), roaming: engineBits(entry, 38, 2), par: engineBit(entry, 37) }),
    0xd0: (entry) => ({ code: engineBits(entry, 16, 12) }),
};
const ENGINE_WITH_TEXT = [0xc8, 0xc9, 0xca, 0xcc, 0xd0];

// What stands in the message beside the packed entry: text, digits, hash; null of what the type has not.
function engineReportedParts(message, type, places) {
    const from = engineBits(places, 40, 16);
    const many = engineBits(places, 56, 8);
    const digit = (_, at) => (at % 2 === 0 ? message[from + (at >> 1)] >> 4 : message[from + (at >> 1)] & 15);
    const start = engineBits(places, 16, 16);
    const units = ENGINE_WITH_TEXT.includes(type) ? message.slice(start, start + engineBits(places, 32, 8)) : null;
    return {
        units, text: units && textOfUnitBytes(units),
        digits: type === 0xca ? Array.from({ length: many }, digit).join("") : null,
        hash: type === 0xff ? { code: many, bytes: message.slice(from, from + [0, 4, 10][many]) } : null,
    };
}

// The office's module: reports of sets, requests to them, and short updates between two stores.
export class Office {
    constructor(modules) {
        const rooms = { first: ENGINE_MOST_LENT, second: ENGINE_MOST_LENT, message: ENGINE_MOST_LENT, buffer: SET_KINDS.vehicle.messageBytes };
        this.memory = new EngineMemory(modules.office, "otap_", rooms);
    }

    // The calls that go by a set's sizes have its name; their buffer is just as long as they ask for.
    packed(kind, name, ...words) {
        return this.memory.packed(kind === "vehicle" ? `vehicle_${name}` : name, ...words);
    }

    buffer(kind) {
        const [from] = this.memory.cleared("buffer");
        return [from, BigInt(SET_KINDS[kind].messageBytes)];
    }

    readReport(bytes, kind) {
        const lent = this.memory.put("message", bytes);
        const read = this.packed(kind, "read_report", ...lent);
        const count = engineBits(read, 24, 8);
        const entries = [];
        let place = ENGINE_REPORT_FIRST;
        for (let left = count; left > 0; left--) {
            entries.push(this.reported(lent, place));
            place = entries[entries.length - 1].next;
        }
        return { number: engineNumber(read), total: engineBits(read, 8, 8), index: engineBits(read, 16, 8), count, entries };
    }

    // The parameter that starts at this byte of the lent message.
    reported(lent, place) {
        const entry = this.memory.packed("report_entry", ...lent, place);
        const places = this.memory.packed("report_places", ...lent, place);
        const type = engineBits(entry, 0, 8);
        const fields = ENGINE_REPORTED[type] ? ENGINE_REPORTED[type](entry) : {};
        const parts = engineReportedParts(this.memory.copy("message", Number(lent[1])), type, places);
        return { place, next: engineBits(places, 0, 16), type, unknown: engineBit(entry, 28), ...fields, ...parts };
    }

    join(first, second, kind) {
        const packed = this.packed(kind, "join", ...this.memory.put("first", first), ...this.memory.put("second", second), ...this.buffer(kind));
        return { failed: engineBits(packed, 8, 8), secondAtFault: engineBit(packed, 32), ...engineWritten(this.memory, packed) };
    }

    checkUpdate(kind, held, wanted, request) {
        const lent = [...this.memory.put("first", held), ...this.memory.put("second", wanted), ...this.memory.put("message", request)];
        const packed = this.packed(kind, "check_update", ...lent);
        return { number: engineNumber(packed), yes: engineBit(packed, 8) };
    }

    propose(kind, held, wanted) {
        const packed = this.packed(kind, "propose", ...this.memory.put("first", held), ...this.memory.put("second", wanted), ...this.buffer(kind));
        return engineWritten(this.memory, packed);
    }
}

// The plain engine: a hand-held that keeps the requests it took, one behind the other, in its area.
export class Desk {
    constructor(modules) {
        const rooms = { area: ENGINE_AREA, message: ENGINE_MOST_LENT, reply: ENGINE_REPLY, scratch: 64 };
        this.memory = new EngineMemory(modules.desk, "otap_plain_", rooms);
        this.start();
    }

    start() {
        return this.memory.number("start", ...this.memory.lend("area"));
    }

    area() {
        return this.memory.copy("area", ENGINE_AREA);
    }

    // An area's bytes, as area() gave them.
    load(bytes) {
        if (bytes.length !== ENGINE_AREA) throw new RangeError(`an area has ${ENGINE_AREA} bytes`);
        this.memory.put("area", bytes);
    }

    // How many bytes behind the first four are used.
    used() {
        return this.memory.copy("area", 4).reduce((sum, byte) => sum * 256 + byte, 0);
    }

    // The area as it was when so many bytes were used: it only ever grows at its end, and is 0 behind that.
    backTo(used) {
        if (used > this.used()) throw new RangeError("the area was never so long");
        const { from, room } = this.memory.places.area;
        this.memory.bytes.set([0, 0, used >> 8, used & 255], from);
        this.memory.bytes.fill(0, from + 4 + used, from + room);
    }

    take(message) {
        const lent = [...this.memory.put("message", message), ...this.memory.lend("area"), ...this.memory.cleared("reply")];
        return engineAnswer(this.memory, this.memory.packed("take", ...lent));
    }

    rowNumber(table, index) {
        return this.memory.number("row_number", table, index, ...this.memory.lend("area"), ...this.memory.cleared("scratch"));
    }

    row(table, index) {
        const part = this.memory.packed("row_part", table, index, ...this.memory.lend("area"), ...this.memory.cleared("scratch"));
        return engineRow(this.memory, part, "area");
    }
}
