// Message bytes as carrier, head and settings, each field with the bytes in which it stands. It shows what can be read, and judges nothing.
import { carrierLayout, headLayouts, messageKinds, settingLayouts, reportLayouts, reportErrorLayout } from "./layouts.js";
import { tablePlaces, hashBytes, codingEight, codingUnicode } from "./layouts.js";

const wireOperations = ["reserved", "add", "delete", "replace"];

// 16-bit units as a string; a surrogate without its other half is U+FFFD.
export function textOfUnits(units) {
    const isHigh = (unit) => unit >= 0xD800 && unit < 0xDC00;
    const isLow = (unit) => unit >= 0xDC00 && unit < 0xE000;
    const isAlone = (unit, at) => (isHigh(unit) && !isLow(units[at + 1])) || (isLow(unit) && !isHigh(units[at - 1]));
    return units.map((unit, at) => String.fromCharCode(isAlone(unit, at) ? 0xFFFD : unit)).join("");
}

// Reads fields one behind the other; a field that the bytes do not hold whole is null, and nothing is read behind it.
class WireReader {
    constructor(bytes, from, unitBytes) {
        this.bytes = bytes;
        this.at = from * 8;
        this.unitBytes = unitBytes;
        this.whole = true;
    }

    // The byte behind all that was read.
    to() {
        return Math.ceil(this.at / 8);
    }

    left() {
        return this.bytes.length * 8 - this.at;
    }

    bits(width) {
        let value = 0;
        for (let each = 0; each < width; each++) {
            value = value * 2 + ((this.bytes[this.at >> 3] >> (7 - (this.at & 7))) & 1);
            this.at++;
        }
        return value;
    }

    // The field from a bit on up to where the reader stands.
    field(key, start, value) {
        const from = start >> 3;
        const to = Math.max(this.to(), from);
        const high = (to - from) * 8 - 1 - (start & 7);
        const low = high - (this.at - start) + 1;
        const isBytes = low === 0 && (start & 7) === 0;
        return isBytes ? { key, from, to, value } : { key, from, to, bits: [high, low], value };
    }

    cut() {
        this.whole = false;
        return null;
    }

    // A field of so many bits.
    plain(key, width) {
        const start = this.at;
        return this.left() < width ? this.cut() : this.field(key, start, this.bits(width));
    }

    // Digits up to the end 1111; what fills the byte is a field of its own.
    number(key) {
        const start = this.at;
        const digits = [];
        let ended = false;
        while (!ended && this.left() >= 4) {
            const digit = this.bits(4);
            ended = digit === 15;
            digits.push(digit);
        }
        this.whole = this.whole && ended;
        const shown = digits.slice(0, ended ? -1 : undefined).map((digit) => digit.toString(16).toUpperCase()).join("");
        return this.at === start ? null : { ...this.field(key, start, shown), ended };
    }

    // Units up to the unit 0, which belongs to the field.
    text(key) {
        const start = this.at;
        const units = [];
        let ended = false;
        while (!ended && this.left() >= this.unitBytes * 8) {
            const unit = this.bits(this.unitBytes * 8);
            ended = unit === 0;
            units.push(unit);
        }
        this.whole = this.whole && ended;
        const shown = units.slice(0, ended ? -1 : undefined);
        return this.at === start ? null : { ...this.field(key, start, textOfUnits(shown)), units: shown, ended };
    }

    // As many bytes as the code says, or as are there.
    hash(key, code) {
        const start = this.at;
        const stated = hashBytes[code];
        const length = Math.min(stated === undefined ? 0 : stated, this.left() >> 3);
        this.whole = this.whole && length === stated;
        const value = Array.from({ length }, () => this.bits(8).toString(16).padStart(2, "0").toUpperCase()).join("");
        return length === 0 ? null : this.field(key, start, value);
    }
}

// One field of a layout, by its width; null where there is none to show.
function wireField(reader, key, width, values) {
    if (typeof width === "number") return reader.plain(key, width);
    if (width === "text") return reader.text(key);
    if (width === "number") return reader.number(key);
    if (width === "hash") return reader.hash(key, values.hashCode);
    if (width === "unlessCurrent") return values.current === 1 ? null : reader.plain(key, 24);
    return (reader.at & 7) === 0 ? null : reader.plain(key, 4);
}

// The fields of a layout, as far as they can be read, into a list and into values by key.
function wireFields(reader, layout, into) {
    for (const [key, width] of layout) {
        if (!reader.whole) return;
        const field = wireField(reader, key, width, into.values);
        if (field !== null) into.fields.push(field);
        if (field !== null && key !== "reserved") into.values[key] = field.value;
        // A number that ends within a byte is followed by what fills it.
        const fill = width === "number" && reader.whole ? wireField(reader, "fill", "fill", into.values) : null;
        if (fill !== null) into.fields.push(fill);
    }
}

// What tells an entry apart in its table; null where it was not read, and of what is in no table.
function wireKey(table, values) {
    const { index, code, address, idType, number } = values;
    const has = (...parts) => parts.every((part) => part !== undefined);
    if (table === 1) return has(idType, number) ? { table, idType, digits: number } : null;
    if (table === 3) return has(code) ? { table, code } : null;
    if (table === 6 || table === 7) return has(address) ? { table, address } : null;
    return table !== null && has(index) ? { table, index } : null;
}

// One text for one key, to look it up by.
export function keyText(key) {
    return [key.table, key.index, key.code, key.address, key.idType, key.digits].filter((part) => part !== undefined).join(":");
}

function wireTable(place) {
    const table = tablePlaces.indexOf(place);
    return table < 1 ? null : table;
}

// What an entry says beside its fields, out of its own values and those of its setting.
function wireEntry(owner, from, reader, into) {
    const values = { ...owner.values, ...into.values };
    const text = into.fields.find((field) => field.key === "text");
    return {
        from, to: reader.to(), key: wireKey(owner.table, values), does: owner.does, fields: into.fields, values: into.values,
        text: text ? text.value : null, units: text ? text.units : null, digits: into.values.number === undefined ? null : into.values.number,
        address: into.values.address === undefined ? null : into.values.address,
        channel: into.values.channel === undefined ? null : into.values.channel, whole: reader.whole,
    };
}

// So many entries of a layout, or as many as can be read.
function wireEntries(reader, layout, count, owner) {
    const entries = [];
    for (let each = 0; each < count && reader.whole && reader.left() > 0; each++) {
        const from = reader.at >> 3;
        const into = { fields: [], values: {} };
        wireFields(reader, layout, into);
        if (into.fields.length > 0) entries.push(wireEntry(owner, from, reader, into));
    }
    reader.whole = reader.whole && entries.length === count;
    return entries;
}

// Does an entry put what it names, or delete it? Operations that its type does not have do neither.
function wireDoes(op, isSlot) {
    if (op === "delete") return "delete";
    return op === "add" || (op === "replace" && !isSlot) ? "put" : null;
}

function wireTypeName(type, layouts, prefix) {
    return layouts[type] ? prefix + "." + type.toString(16).toUpperCase() : prefix + ".unknown";
}

function wireSetting(bytes, from, id, coding) {
    const reader = new WireReader(bytes, from, coding === codingEight ? 1 : 2);
    const type = bytes[from];
    const layout = settingLayouts[type];
    const place = layout ? layout.place : null;
    const setting = { id, type, name: wireTypeName(type, settingLayouts, "setting"), place, table: wireTable(place), coding, from, to: from };
    Object.assign(setting, { op: null, does: null, clears: false, fields: [], values: {}, entries: [], whole: false, lengthFits: false });
    wireFields(reader, [["type", 8], ["dataLength", 16], ...(layout ? layout.head : [])], setting);
    const op = setting.values.op;
    if (op !== undefined) setting.op = wireOperations[op];
    setting.does = wireDoes(setting.op, Boolean(layout && layout.one));
    setting.clears = setting.op === "replace" && setting.does === "put";
    const count = layout && layout.one ? 1 : setting.values.count || 0;
    if (layout && reader.whole) setting.entries = wireEntries(reader, layout.one || layout.entry || [], count, setting);
    if (layout && layout.tail) wireFields(reader, layout.tail, setting);
    setting.to = reader.to();
    setting.whole = Boolean(layout) && reader.whole;
    setting.lengthFits = setting.whole && setting.values.dataLength === setting.to - from - 1;
    return setting;
}

// One parameter of a report; a result of 1 is an error, behind which nothing stands.
function wireParameter(bytes, from, id) {
    const reader = new WireReader(bytes, from, 2);
    const type = bytes[from];
    const error = from + 1 < bytes.length && bytes[from + 1] >= 0x80;
    const layout = error ? undefined : reportLayouts[type];
    const place = layout ? layout.place : null;
    const parameter = { id, type, asked: layout ? layout.asked : type, name: wireTypeName(type, reportLayouts, "report"), place, error };
    Object.assign(parameter, { table: wireTable(place), does: null, from, to: from, fields: [], values: {}, entries: [], whole: false });
    wireFields(reader, [["type", 8], ...(layout ? layout.fields : reportErrorLayout)], parameter);
    const count = parameter.values.listCount || 0;
    if (layout && layout.entry && reader.whole) parameter.entries = wireEntries(reader, layout.entry, count, parameter);
    const said = wireEntry({ ...parameter, values: {} }, from, reader, parameter);
    parameter.to = reader.to();
    parameter.whole = (error || Boolean(layout)) && reader.whole;
    return { ...parameter, text: said.text, units: said.units, digits: said.digits, address: said.address, key: said.key };
}

// One after the other, by where the fields of each end; behind one that cannot be read to its end nobody knows what is what.
function wireList(length, from, count, read) {
    const list = [];
    let at = from;
    while (list.length < count && at < length && (list.length === 0 || list[list.length - 1].whole)) {
        list.push(read(at, list.length + 1));
        at = list[list.length - 1].to;
    }
    return list;
}

function wireKind(message, forced) {
    if (message.values.msgType === undefined) return "short";
    return forced || messageKinds[message.values.msgType];
}

// Carrier, OTAPVer and MsgType, then the head of the kind.
function wireHead(bytes, forced) {
    const reader = new WireReader(bytes, 0, 2);
    const message = { fields: [], values: {}, coding: null };
    wireFields(reader, carrierLayout, message);
    const carrier = message.fields;
    message.fields = [];
    wireFields(reader, [["otapVer", 5], ["msgType", 3]], message);
    const kind = wireKind(message, forced);
    if (headLayouts[kind]) wireFields(reader, headLayouts[kind], message);
    return { carrier, head: message.fields, values: message.values, kind, at: reader.to(), whole: reader.whole };
}

function wireMessage(bytes, forced) {
    const { carrier, head, values, kind, at, whole } = wireHead(bytes, forced);
    const or = (key) => (values[key] === undefined ? null : values[key]);
    const message = { kind, length: bytes.length, carrier, head, values, version: or("otapVer"), msgType: or("msgType"), coding: or("coding") };
    const counts = { request: or("paramSum"), report: or("paramSum"), query: or("paramTypeSum") };
    message.count = counts[kind] === undefined ? null : counts[kind];
    const listed = (read) => (whole && message.count !== null ? wireList(bytes.length, at, message.count, read) : []);
    message.settings = kind === "request" ? listed((from, id) => wireSetting(bytes, from, id, message.coding)) : [];
    message.parameters = kind === "report" ? listed((from, id) => wireParameter(bytes, from, id)) : [];
    message.types = kind === "query" ? listed((from) => ({ key: "askedType", from, to: from + 1, value: bytes[from], whole: true })) : [];
    const last = [...message.settings, ...message.parameters, ...message.types].pop();
    const behind = last ? last.to : at;
    message.rest = behind < bytes.length ? { from: behind, to: bytes.length } : null;
    message.whole = whole && message.rest === null && (!last || last.whole) && message.count === listedCount(message);
    return message;
}

// How many were read of what is counted; null where the kind counts nothing.
function listedCount(message) {
    if (message.count === null) return null;
    return message.settings.length + message.parameters.length + message.types.length;
}

// Any bytes, by the kind that their MsgType says.
export function parseMessage(bytes) {
    return wireMessage(bytes, null);
}

// Bytes that are shown as a reply, or as a report, whatever their MsgType says.
export function parseReply(bytes) {
    return wireMessage(bytes, "reply");
}

export function parseReport(bytes) {
    return wireMessage(bytes, "report");
}

// The coding types of a request's texts.
export function isTextCoding(coding) {
    return coding === codingEight || coding === codingUnicode;
}
