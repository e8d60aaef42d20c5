// Fields tile the bits in which they stand, one behind the other, and say the value of those bits.
import { same, must } from "./held.mjs";

// The bits of a field, from the message's first one.
function bitsOf(field) {
    return field.bits ? [field.to * 8 - field.bits[0] - 1, field.to * 8 - field.bits[1]] : [field.from * 8, field.to * 8];
}

function valueOf(bytes, start, end) {
    let value = 0n;
    for (let at = start; at < end; at++) value = value * 2n + BigInt((bytes[at >> 3] >> (7 - (at & 7))) & 1);
    return value;
}

const hexOf = (bytes, start, end) => valueOf(bytes, start, end).toString(16).toUpperCase().padStart((end - start) / 4, "0");

// A number has its end F, and a text its end unit, unless the bytes end before it; a unit has `width` digits.
function valueStands(bytes, field, [start, end], width) {
    if (field.key === "number") return must("a number's digits", [field.value, field.value + "F"].includes(hexOf(bytes, start, end)));
    if (field.key === "hashValue") return same("a hash value", field.value, hexOf(bytes, start, end));
    if (field.key !== "text") return same(`the value of ${field.key}`, BigInt(field.value), valueOf(bytes, start, end));
    const units = field.units.map((unit) => unit.toString(16).toUpperCase().padStart(width, "0")).join("");
    return must("a text's units", [units, units + "0".repeat(width)].includes(hexOf(bytes, start, end)));
}

// Do these fields tile the bytes of what has them, and in the order of the message?
function fieldsTile(bytes, what, from, to, fields, isWhole, width) {
    let at = from * 8;
    for (const field of fields) {
        const [start, end] = bitsOf(field);
        must(`${what}: the range of ${field.key}`, field.from === start >> 3 && field.to === Math.ceil(end / 8) && end > start);
        same(`${what}: where ${field.key} starts`, start, at);
        valueStands(bytes, field, [start, end], width);
        at = end;
    }
    must(`${what}: where its fields end`, isWhole ? at === to * 8 : Math.ceil(at / 8) === to);
}

// A setting's fields in the message's order: what fills its last byte stands behind the entries.
function inOrder(each) {
    const fill = each.fields.filter((field) => field.key === "fill" && each.place === "channels");
    return [...each.fields.filter((field) => !fill.includes(field)), ...each.entries.flatMap((entry) => entry.fields), ...fill];
}

// Do the entries stand within their setting, one behind the other? Two channels may share a byte.
function entriesStand(each) {
    let at = each.from;
    for (const entry of each.entries) {
        must("an entry's range", entry.from >= at - (each.place === "channels" ? 1 : 0) && entry.to > entry.from && entry.to <= each.to);
        at = entry.to;
    }
}

// A whole message of parseMessage: every byte is in the carrier, the head, one of its parts or the rest.
export function messageTiles(bytes, message) {
    const head = [...message.carrier, ...message.head];
    const headTo = head.length === 0 ? 0 : head[head.length - 1].to;
    fieldsTile(bytes, "the head", 0, headTo, head, message.kind !== "short");
    let at = headTo;
    for (const each of [...message.settings, ...message.parameters]) {
        same("where a setting starts", each.from, at);
        fieldsTile(bytes, each.name, each.from, each.to, inOrder(each), each.whole, message.kind === "request" && message.coding === 4 ? 2 : 4);
        entriesStand(each);
        at = each.to;
    }
    for (const type of message.types) {
        same("where a type asked for stands", [type.from, type.to, type.value], [at, at + 1, bytes[at]]);
        at = type.to;
    }
    same("the rest", message.rest, at < bytes.length ? { from: at, to: bytes.length } : null);
}
