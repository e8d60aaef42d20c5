// Values of forms as message bytes. What the library should refuse is written as it is, cut to its field's bits; what no bytes can say throws.
import { carrierLayout, headLayouts, settingLayouts, codingEight, codingUnicode } from "./layouts.js";

const composeOperations = { reserved: 0, add: 1, delete: 2, replace: 3 };

// An Error whose message is a key of the words; `values` fill its places.
function composeFault(key, values) {
    return Object.assign(new Error(key), { key, values: values || {} });
}

class ComposeWriter {
    constructor(coding) {
        if (coding !== codingEight && coding !== codingUnicode) throw composeFault("compose.coding");
        this.coding = coding;
        this.out = [];
        this.used = 0;
    }

    bits(value, width) {
        for (let place = width - 1; place >= 0; place--) {
            if ((this.used & 7) === 0) this.out.push(0);
            this.out[this.out.length - 1] |= (Math.floor(value / 2 ** place) % 2) << (7 - (this.used & 7));
            this.used++;
        }
    }

    // A whole number, cut to its field's bits; a flag is 0 or 1.
    plain(value, width) {
        const number = Number(value === undefined ? 0 : value);
        if (!Number.isSafeInteger(number) || number < 0) throw composeFault("compose.number", { value });
        this.bits(number % 2 ** width, width);
    }

    fill() {
        if ((this.used & 7) !== 0) this.bits(15, 4);
    }

    // Digits, the end 1111, and 1111 where the byte is not full. A to E have bits, and F is the end.
    number(digits) {
        if (!/^[0-9A-Ea-e]*$/.test(digits)) throw composeFault("compose.digits", { value: digits });
        for (const digit of digits) this.bits(parseInt(digit, 16), 4);
        this.bits(15, 4);
        this.fill();
    }

    text(text) {
        const width = this.coding === codingEight ? 8 : 16;
        for (let at = 0; at < text.length; at++) {
            const unit = text.charCodeAt(at);
            if (unit === 0) throw composeFault("compose.unit");
            if (unit >= 2 ** width) throw composeFault("compose.eight", { character: String.fromCodePoint(text.codePointAt(at)) });
            this.bits(unit, width);
        }
        this.bits(0, width);
    }

    hash(value) {
        const bare = value.replace(/\s/g, "");
        if (!/^([0-9A-Fa-f]{2})*$/.test(bare)) throw composeFault("compose.hex", { value });
        for (let at = 0; at < bare.length; at += 2) this.bits(parseInt(bare.slice(at, at + 2), 16), 8);
    }

    // One field of a layout.
    field(key, width, values) {
        const value = values[key];
        if (typeof width === "number") this.plain(value, width);
        else if (width === "text") this.text(value || "");
        else if (width === "number") this.number(value || "");
        else if (width === "hash") this.hash(value || "");
        else if (width === "fill") this.fill();
        else if (!values.current) this.plain(value, 24);
    }

    fields(layout, values) {
        for (const [key, width] of layout) this.field(key, width, values);
    }
}

// The bytes of a setting {type, values, entries} under a coding type, with its true DataLength.
export function writeSetting(setting, coding) {
    if (setting instanceof Uint8Array) return setting;
    const layout = settingLayouts[setting.type];
    const entries = setting.entries || [];
    const countField = layout.head.find(([key]) => key === "count");
    const most = countField ? 2 ** countField[1] - 1 : 1;
    if (entries.length > most) throw composeFault("compose.entries", { most, count: entries.length });
    const writer = new ComposeWriter(coding);
    writer.fields(layout.head, { ...setting.values, count: entries.length });
    entries.forEach((entry) => writer.fields(layout.one || layout.entry, entry));
    writer.fields(layout.tail || [], {});
    const length = writer.out.length + 2;
    if (length > 65535) throw composeFault("compose.dataLength", { bytes: length });
    return Uint8Array.from([setting.type, length >> 8, length & 255, ...writer.out]);
}

// A message with its true length: data bytes behind the carrier.
function composeCarry(coding, data) {
    const length = data.length + 2;
    if (length > 65535) throw composeFault("compose.message", { bytes: length + 4 });
    const writer = new ComposeWriter(codingUnicode);
    writer.fields(carrierLayout, { protocol: 2, service: 2, length, mfid: 8, coding });
    const bytes = new Uint8Array(writer.out.length + data.length);
    bytes.set(writer.out);
    bytes.set(data, writer.out.length);
    return bytes;
}

// OTAPVer 1, MsgType and the head of its kind.
function composeHead(kind, msgType, values) {
    const writer = new ComposeWriter(codingUnicode);
    writer.fields([["otapVer", 5], ["msgType", 3], ...headLayouts[kind]], { otapVer: 1, msgType, ...values });
    return writer.out;
}

// A request of settings, objects of the functions below or bytes. `send` and `reboot` add an FF that asks for them, where none is there.
export function composeRequest(settings, options) {
    const { coding, send, reboot } = options || {};
    const own = settings.map((setting) => setting.coding).find((each) => each !== undefined);
    const chosen = coding || own || codingUnicode;
    const hasLast = settings.some((setting) => setting.type === 0xFF || setting[0] === 0xFF);
    const all = (send || reboot) && !hasLast ? [...settings, lastItem({ reply: send, reboot })] : settings;
    if (all.length > 255) throw composeFault("compose.settings", { count: all.length });
    const parts = [composeHead("request", 0, { paramSum: all.length }), ...all.map((setting) => writeSetting(setting, chosen))];
    const data = new Uint8Array(parts.reduce((sum, part) => sum + part.length, 0));
    parts.reduce((at, part) => {
        data.set(part, at);
        return at + part.length;
    }, 0);
    return composeCarry(chosen, data);
}

// Does the set keep this hash? Code 1 has four bytes, code 2 ten.
export function composeResultQuery({ code, hashHex }) {
    return composeCarry(0, composeHead("resultQuery", 5, { hashCode: code, hashValue: hashHex || "" }));
}

// A query for the tables of these types, C8 to D0 and FF.
export function composeQuery(types) {
    if (types.length > 255) throw composeFault("compose.entries", { most: 255, count: types.length });
    return composeCarry(0, [...composeHead("query", 2, { paramTypeSum: types.length }), ...types.map((type) => type & 255)]);
}

function composeFlags(form) {
    const { encryption, emergency, priority } = form;
    return { encryption: Boolean(encryption), emergency: Boolean(emergency), priority: priority || 0 };
}

function composeGroupFlags(form) {
    const { attribute, broadcast, ovcm } = form;
    return { ...composeFlags(form), attribute: attribute === undefined ? 3 : attribute, broadcast: Boolean(broadcast), ovcm: Boolean(ovcm) };
}

function composeOp(op) {
    return op === undefined ? 1 : composeOperations[op];
}

// A setting of a slot where the form names one, and otherwise of the list.
function composeNamed(form, slotType, listType, values, entry) {
    const isSlot = form.slot !== undefined && form.slot !== null;
    const index = isSlot ? { index: form.slot } : {};
    return { type: isSlot ? slotType : listType, coding: form.coding, values: { op: composeOp(form.op), ...values, ...index }, entries: [entry] };
}

// One group: {slot} names its slot, without one it is a contact. Attribute 3, a member group, where none is given.
export function nameGroup(form) {
    return composeNamed(form, 0xD1, 0xC8, composeGroupFlags(form), { address: form.address, text: form.name });
}

export function nameIndividual(form) {
    return composeNamed(form, 0xD2, 0xC9, composeFlags(form), { address: form.address, text: form.name });
}

// One line: {slot} names its slot, without one it is among the lines. idType 0 is PSTN, 1 PABX.
export function addLine(form) {
    return composeNamed(form, 0xD3, 0xCA, { ...composeFlags(form), idType: form.idType || 0 }, { number: form.digits, text: form.name });
}

// Several at once, with one set of flags: entries are {address, name}, of lines {digits, name}.
export function setGroupContacts(form) {
    const entries = form.entries.map(({ address, name }) => ({ address, text: name }));
    return { type: 0xC8, coding: form.coding, values: { op: composeOp(form.op), ...composeGroupFlags(form) }, entries };
}

export function setIndividualContacts(form) {
    const entries = form.entries.map(({ address, name }) => ({ address, text: name }));
    return { type: 0xC9, coding: form.coding, values: { op: composeOp(form.op), ...composeFlags(form) }, entries };
}

export function setLines(form) {
    const entries = form.entries.map(({ digits, name }) => ({ number: digits, text: name }));
    return { type: 0xCA, coding: form.coding, values: { op: composeOp(form.op), ...composeFlags(form), idType: form.idType || 0 }, entries };
}

// Quick texts {index, text} and status texts {code, text}; one alone is added.
export function setQuickTexts(form) {
    return { type: 0xCC, coding: form.coding, values: { op: composeOp(form.op) }, entries: form.entries };
}

export function quickText({ index, text, coding }) {
    return setQuickTexts({ entries: [{ index, text }], coding });
}

export function setStatusTexts(form) {
    return { type: 0xD0, coding: form.coding, values: { op: composeOp(form.op) }, entries: form.entries };
}

export function statusText({ code, text, coding }) {
    return setStatusTexts({ entries: [{ code, text }], coding });
}

export function setChannels({ op, channels }) {
    return { type: 0xCE, values: { op: composeOp(op) }, entries: channels.map((channel) => ({ channel })) };
}

// Where the emergency key calls: the current group, or with current 0 an address, of a group or an individual.
export function setEmergencyKey({ current, group, voice, status, siren, address }) {
    const flags = { current: Boolean(current), group: Boolean(group), voice: Boolean(voice), status: Boolean(status), siren: Boolean(siren) };
    return { type: 0xCB, values: { ...flags, address } };
}

export function setHomeNumbers({ nzi, np }) {
    return { type: 0xCD, values: { nzi, np } };
}

export function setSystemCode({ lai, la, roaming, par }) {
    return { type: 0xCF, values: { lai, la, roaming, par } };
}

// FF, behind all others: the request's hash, whether a reply is wanted and whether the set starts again.
export function lastItem({ code, hashHex, reboot, reply }) {
    return { type: 0xFF, values: { reboot: Boolean(reboot), reply: Boolean(reply), hashCode: code || 0, hashValue: hashHex || "" } };
}

// Deletes; of slots only the index counts, and a line slot's number is 0, since an empty one is at fault.
export function deleteGroup({ slot, address }) {
    return nameGroup({ slot, address: address || 0, op: "delete", attribute: slot === undefined ? 3 : 0 });
}

export function deleteIndividual({ slot, address }) {
    return nameIndividual({ slot, address: address || 0, op: "delete" });
}

export function deleteLine({ slot, idType, digits }) {
    return addLine({ slot, idType, digits: digits || "0", op: "delete" });
}

export function deleteQuickText({ index }) {
    return setQuickTexts({ op: "delete", entries: [{ index }] });
}

export function deleteStatusText({ code }) {
    return setStatusTexts({ op: "delete", entries: [{ code }] });
}

export function deleteChannels(channels) {
    return setChannels({ op: "delete", channels });
}
