// Messages as record files, as hexadecimal text and as the fragment of a link. What is damaged gives a fault's key, and nothing throws.

// At most so many bytes of messages go into a link; longer ones are cut by some programs on their way.
export const linkBytes = 30000;

const recordSetKinds = ["handheld", "vehicle"];
const recordLanguages = ["en", "zh"];
const recordLetters = "ABCDEFGHIJKLMNOPQRSTUVWXYZabcdefghijklmnopqrstuvwxyz0123456789-_";

// Records: length of the message and kind, two bytes each, low byte first, then the message; one cut short is the last, and is no record.
export function parseRecords(bytes) {
    const records = [];
    let from = 0;
    let cut = false;
    while (from < bytes.length && !cut) {
        const length = from + 4 <= bytes.length ? bytes[from] + 256 * bytes[from + 1] : Infinity;
        cut = from + 4 + length > bytes.length;
        if (!cut) records.push({ kind: bytes[from + 2] + 256 * bytes[from + 3], message: bytes.slice(from + 4, from + 4 + length), from });
        if (!cut) from += 4 + length;
    }
    return { records, cut, from };
}

// The same records as a file; each is {kind, message}, or a message, whose kind is 0. A message over 65,535 bytes has no record: it is cut to them.
export function writeRecords(list) {
    const parts = list.map((each) => (each instanceof Uint8Array ? { kind: 0, message: each } : each));
    const sizes = parts.map((each) => Math.min(each.message.length, 65535));
    const bytes = new Uint8Array(sizes.reduce((sum, size) => sum + 4 + size, 0));
    let at = 0;
    parts.forEach(({ kind, message }, each) => {
        bytes.set([sizes[each] & 255, sizes[each] >> 8, kind & 255, (kind >> 8) & 255], at);
        bytes.set(message.subarray(0, sizes[each]), at + 4);
        at += 4 + sizes[each];
    });
    return bytes;
}

export function toHex(bytes) {
    return Array.from(bytes, (byte) => byte.toString(16).padStart(2, "0").toUpperCase()).join(" ");
}

// The bytes of a line: two digits each, with or without spaces, colons, commas and 0x between them; or where it is none.
function recordHexLine(line, start) {
    const pattern = /(?:0[xX](?=[0-9A-Fa-f]))?([0-9A-Fa-f]{2})|[\s:,;]+/y;
    const bytes = [];
    while (pattern.lastIndex < line.length) {
        const at = pattern.lastIndex;
        const found = pattern.exec(line);
        if (found === null) return recordHexFault(line, start, at);
        if (found[1] !== undefined) bytes.push(parseInt(found[1], 16));
    }
    return { bytes };
}

// Half a byte, or the first character that is no digit.
function recordHexFault(line, start, at) {
    const isDigit = /[0-9A-Fa-f]/.test(line[at]);
    if (isDigit && /^.(?:[\s:,;]|$)/.test(line.slice(at))) return { fault: "hex.half", at: start + at, character: line[at] };
    const wrong = isDigit ? at + 1 : at;
    return { fault: "hex.character", at: start + wrong, character: String.fromCodePoint(line.codePointAt(wrong)) };
}

// A line goes on with the message before it where that one states more bytes than it has, and the line does not look like a start.
function recordGoesOn(message, bytes) {
    const states = message.length < 4 ? 0 : message[2] * 256 + message[3];
    const isStart = (list) => list.length >= 2 && list[0] === 2 && list[1] === 2;
    return isStart(message) && !isStart(bytes) && states > message.length - 4;
}

// Lines of bytes as messages: where blank lines stand between them, these part the messages, and otherwise each line is one.
function recordJoinLines(lines) {
    const used = lines.map((line) => line.length > 0);
    const isParted = used.slice(used.indexOf(true), used.lastIndexOf(true)).includes(false);
    const messages = [];
    let open = false;
    for (const line of lines) {
        const last = messages[messages.length - 1];
        const joins = open && (isParted || recordGoesOn(last, line));
        if (line.length > 0 && joins) messages[messages.length - 1] = last.concat(line);
        if (line.length > 0 && !joins) messages.push(line);
        open = line.length > 0;
    }
    return messages;
}

// Text with hexadecimal digits as messages: {messages, bytes: the first}; or {fault, at, character} with the place of the first fault in the text.
export function parseHex(text) {
    const lines = [];
    let start = 0;
    for (const line of text.split("\n")) {
        const read = recordHexLine(line, start);
        if (read.fault) return read;
        lines.push(read.bytes);
        start += line.length + 1;
    }
    const messages = recordJoinLines(lines).map((bytes) => Uint8Array.from(bytes));
    return messages.length === 0 ? { fault: "hex.none", at: 0 } : { messages, bytes: messages[0] };
}

function recordTo64(bytes) {
    let text = "";
    for (let at = 0; at < bytes.length; at += 3) {
        const word = (bytes[at] << 16) | ((bytes[at + 1] || 0) << 8) | (bytes[at + 2] || 0);
        const letters = [18, 12, 6, 0].map((shift) => recordLetters[(word >> shift) & 63]).join("");
        text += letters.slice(0, Math.min(bytes.length - at, 3) + 1);
    }
    return text;
}

// The bytes of base64url, or null where a letter is none or bits are left over.
function recordFrom64(text) {
    const bytes = [];
    let word = 0;
    let bits = 0;
    for (const letter of text) {
        const value = recordLetters.indexOf(letter);
        if (value < 0) return null;
        word = ((word << 6) | value) & 0xFFFF;
        bits += 6;
        if (bits >= 8) bytes.push((word >> (bits - 8)) & 255);
        if (bits >= 8) bits -= 8;
    }
    return bits < 6 && (word & ((1 << bits) - 1)) === 0 ? Uint8Array.from(bytes) : null;
}

// CRC-32 of a text's letters, so that a link with a changed letter is told from another link.
function recordSum(text) {
    let sum = 0xFFFFFFFF;
    for (let at = 0; at < text.length * 8; at++) {
        const bit = (text.charCodeAt(at >> 3) >> (at & 7)) & 1;
        sum = (sum >>> 1) ^ ((sum ^ bit) & 1 ? 0xEDB88320 : 0);
    }
    return ((sum ^ 0xFFFFFFFF) >>> 0).toString(16).padStart(8, "0");
}

// Messages, position (how many are taken), kind of set and language as a link's fragment: {fragment}, or {fault, bytes, most} of too many bytes.
export function toFragment(state) {
    const bytes = state.messages.reduce((sum, message) => sum + message.length, 0);
    if (bytes > linkBytes) return { fault: "link.tooLong", bytes, most: linkBytes };
    const kind = recordSetKinds.indexOf(state.kind) === 1 ? "v" : "h";
    const language = recordLanguages.includes(state.language) ? state.language : "en";
    const body = `${kind}.${state.position || 0}.${language}.${recordTo64(writeRecords(state.messages))}`;
    return { fragment: `#v1=${body}.${recordSum(body)}` };
}

function recordFromBody(body) {
    const parts = /^([hv])\.(\d{1,5})\.(en|zh)\.([A-Za-z0-9_-]*)$/.exec(body);
    const bytes = parts === null ? null : recordFrom64(parts[4]);
    const read = bytes === null ? { cut: true } : parseRecords(bytes);
    if (read.cut) return { fault: "link.damaged" };
    const messages = read.records.map((record) => record.message);
    return { messages, position: Math.min(Number(parts[2]), messages.length), kind: recordSetKinds[parts[1] === "v" ? 1 : 0], language: parts[3] };
}

// What a fragment says: {messages, position, kind, language}; {none: true} where there is none; or {fault}.
export function fromFragment(text) {
    const bare = String(text).replace(/^#/, "");
    if (bare === "") return { none: true };
    if (!/^v\d+=/.test(bare)) return { fault: "link.unknown" };
    if (!bare.startsWith("v1=")) return { fault: "link.version" };
    const parts = /^v1=(.*)\.([0-9a-f]{8})$/s.exec(bare);
    if (parts === null || recordSum(parts[1]) !== parts[2]) return { fault: "link.damaged" };
    return recordFromBody(parts[1]);
}
