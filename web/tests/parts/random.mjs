// Random forms, requests and damage; one seed gives the same ones on every machine.
import * as compose from "../../parts/compose.js";

let state = 20261117;

// A number from 0 up to `below`, by xorshift.
export function below(limit) {
    state ^= state << 13;
    state ^= state >>> 17;
    state ^= state << 5;
    return (state >>> 0) % limit;
}

export function pick(list) {
    return list[below(list.length)];
}

const many = (count, make) => Array.from({ length: count }, make);
const flag = () => below(2) === 1;

// A text under a coding type: mostly short, units of any value but 0.
export function randomText(coding, most) {
    const unit = () => (coding === 4 ? 1 + below(255) : pick([0x41 + below(26), 0x4E00 + below(20000), 1 + below(65535), 0xD800 + below(2048)]));
    return String.fromCharCode(...many(below(most + 1), unit));
}

export function randomDigits() {
    return many(1 + below(18), () => String(below(10))).join("");
}

// An address in range.
export const randomAddress = () => (0x20 + below(0x1E0)) * 0x8000 + 1 + below(0x7FFF);

const flags = () => ({ encryption: flag(), emergency: flag(), priority: below(4) });
const groupFlags = () => ({ ...flags(), attribute: 1 + below(3), broadcast: flag(), ovcm: flag() });
const op = () => pick(["add", "add", "delete", "replace"]);

// The forms by the name of their function, each with values in range.
const forms = {
    nameGroup: (coding) => ({ slot: flag() ? below(16) : undefined, address: randomAddress(), name: randomText(coding, 16), ...groupFlags() }),
    nameIndividual: (coding) => ({ slot: flag() ? below(16) : undefined, address: randomAddress(), name: randomText(coding, 16), ...flags() }),
    addLine: (coding) => ({ slot: flag() ? below(16) : undefined, idType: below(2), digits: randomDigits(), name: randomText(coding, 16), ...flags() }),
    setGroupContacts: (coding) => ({ op: op(), ...groupFlags(), entries: many(below(5), () => ({ address: randomAddress(), name: randomText(coding, 16) })) }),
    setIndividualContacts: (coding) => ({ op: op(), ...flags(), entries: many(below(5), () => ({ address: randomAddress(), name: randomText(coding, 16) })) }),
    setLines: (coding) => ({
        op: op(), ...flags(), idType: below(2), entries: many(below(5), () => ({ digits: randomDigits(), name: randomText(coding, 16) })),
    }),
    setQuickTexts: (coding) => ({ op: op(), entries: many(below(5), () => ({ index: below(64), text: "x" + randomText(coding, 22) })) }),
    setStatusTexts: (coding) => ({ op: op(), entries: many(below(5), () => ({ code: 32 + below(96), text: randomText(coding, 16) })) }),
    setChannels: () => ({ op: op(), channels: many(below(7), () => 241 + below(400)) }),
    setEmergencyKey: () => {
        const current = flag();
        const own = current ? {} : { address: randomAddress() };
        return { current, group: flag(), voice: flag(), status: flag(), siren: flag(), ...own };
    },
    setHomeNumbers: () => ({ nzi: below(512), np: below(807) }),
    setSystemCode: () => ({ lai: below(4096), la: below(9), roaming: below(3), par: below(2) }),
    deleteGroup: () => (flag() ? { slot: below(16) } : { address: randomAddress() }),
    deleteIndividual: () => (flag() ? { slot: below(16) } : { address: randomAddress() }),
    deleteLine: () => (flag() ? { slot: below(16) } : { idType: below(2), digits: randomDigits() }),
    deleteQuickText: () => ({ index: below(64) }),
    deleteStatusText: () => ({ code: 32 + below(96) }),
};

// {make, form}: a function of compose.js and what it is given.
export function randomForm(coding) {
    const make = pick(Object.keys(forms));
    return { make, form: forms[make](coding) };
}

export function randomLast() {
    const code = below(3);
    const hashHex = many([0, 4, 10][code], () => below(256).toString(16).padStart(2, "0").toUpperCase()).join("");
    return { code, hashHex, reboot: flag(), reply: flag() };
}

// A request in range, of up to eight settings: its coding, forms, last item or none, settings and bytes.
export function randomRequest() {
    const coding = pick([4, 7]);
    const chosen = many(1 + below(8), () => randomForm(coding));
    const last = flag() ? randomLast() : null;
    const settings = [...chosen.map(({ make, form }) => compose[make](form)), ...(last ? [compose.lastItem(last)] : [])];
    return { coding, chosen, last, settings, bytes: compose.composeRequest(settings, { coding }) };
}

const damages = [
    (bytes) => bytes.slice(0, below(bytes.length + 1)),
    (bytes) => bytes.with(below(bytes.length), below(256)),
    (bytes) => {
        const at = below(bytes.length);
        return bytes.with(at, bytes[at] ^ (1 << below(8)));
    },
    (bytes) => Uint8Array.from([...bytes, ...many(1 + below(6), () => below(256))]),
    (bytes) => {
        const at = below(bytes.length);
        return Uint8Array.from([...bytes.slice(0, at), ...bytes.slice(at + 1 + below(3))]);
    },
    (bytes) => {
        const at = below(bytes.length);
        return Uint8Array.from([...bytes.slice(0, at), below(256), ...bytes.slice(at)]);
    },
];

// Bytes that were a message before up to three damages; empty ones stay.
export function damaged(bytes) {
    let out = bytes;
    for (let each = 1 + below(3); each > 0 && out.length > 0; each--) out = pick(damages)(out);
    return out;
}

// Bytes of no message, some behind a carrier that is right, with any MsgType.
export function randomBytes() {
    const bytes = Uint8Array.from(many(below(120), () => below(256)));
    const head = [2, 2, 0, 0, 8, pick([0, 4, 7, below(16)]), 8 + below(8)];
    if (flag()) bytes.set(head.slice(0, bytes.length));
    if (flag() && bytes.length > 8) bytes[8] = pick([0xC8, 0xC9, 0xCA, 0xCB, 0xCC, 0xCD, 0xCE, 0xCF, 0xD0, 0xD1, 0xD2, 0xD3, 0xFF]);
    if (flag() && bytes.length > 10) bytes[10] = pick([0x88, 0x89, 0x8A, 0x8B, 0x8C, 0x8D, 0x8E, 0x8F, 0x90, 0xBF]);
    return bytes;
}
