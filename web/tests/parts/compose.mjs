// compose.js: bytes known by hand, values that come back, what is written though it is at fault, and what no bytes can say.
import { readFileSync } from "node:fs";
import * as compose from "../../parts/compose.js";
import { parseMessage } from "../../parts/wire.js";
import { parseRecords, toHex } from "../../parts/records.js";
import { hasWords } from "../../parts/say.js";
import { held, same, must, thrown } from "./held.mjs";
import { randomRequest } from "./random.mjs";

const bytesOf = (setting, coding) => toHex(compose.writeSetting(setting, coding || 7));

// Document 01's cases 8 to 11, examples/two_sets.c, and fields counted by hand.
function byHand() {
    const { composeRequest, setChannels, addLine } = compose;
    same("document 01, 10", toHex(composeRequest([setChannels({ op: "replace", channels: [241, 640] })])), "02 02 00 0C 08 07 08 01 CE 00 07 C0 02 0F 12 80");
    same("document 01, 11", toHex(composeRequest([addLine({ idType: 1, digits: "2345", name: "" })])), "02 02 00 0E 08 07 08 01 CA 00 09 42 01 23 45 FF 00 00");
    same("document 01, 9", bytesOf(compose.setHomeNumbers({ nzi: 15, np: 806 })), "CD 00 05 07 E4 C0");
    same("document 01, 8", bytesOf(addLine({ digits: "123" })), "CA 00 08 40 01 12 3F 00 00");
    same("an eight-bit name", bytesOf(addLine({ idType: 1, digits: "2345", name: "Center" }), 4), "CA 00 0E 42 01 23 45 FF 43 65 6E 74 65 72 00");
    same("one channel", bytesOf(setChannels({ channels: [241] })), "CE 00 06 40 01 0F 1F");
    same("a system code", bytesOf(compose.setSystemCode({ lai: 0x123, la: 8, roaming: 1, par: 0 })), "CF 00 05 12 38 40");
    same("the key, current", bytesOf(compose.setEmergencyKey({ current: true, siren: true })), "CB 00 03 88");
    same("the key, a group", bytesOf(compose.setEmergencyKey({ group: true, voice: true, siren: true, address: 0x100001 })), "CB 00 06 68 10 00 01");
    const flags = { attribute: 2, broadcast: true, ovcm: true, priority: 3 };
    same("a group slot", bytesOf(compose.nameGroup({ slot: 5, address: 0x100002, name: "A", ...flags })), "D1 00 0B 6A C5 10 00 02 00 41 00 00");
    same("a group contact", bytesOf(compose.nameGroup({ contact: true, address: 0x100002, name: "A", ...flags })), "C8 00 0C 6A C0 01 10 00 02 00 41 00 00");
    same("an individual slot", bytesOf(compose.nameIndividual({ slot: 5, address: 0x100002, encryption: true, priority: 1 }), 4), "D2 00 08 64 05 10 00 02 00");
    same("an individual contact", bytesOf(compose.nameIndividual({ address: 0x100002, emergency: true, priority: 2 }), 4), "C9 00 08 58 01 10 00 02 00");
    same("a line slot", bytesOf(addLine({ slot: 3, idType: 1, digits: "12", encryption: true, priority: 1 }), 4), "D3 00 07 66 03 12 FF 00");
    same("a quick text", bytesOf(compose.quickText({ index: 63, text: "A" }), 4), "CC 00 06 41 3F 41 00");
    same("a status text", bytesOf(compose.statusText({ code: 32, text: "A" }), 4), "D0 00 07 40 01 20 41 00");
    same("the last item", bytesOf(compose.lastItem({ code: 1, hashHex: "20 26 11 15", reply: true })), "FF 00 07 41 20 26 11 15");
    same("a result query", toHex(compose.composeResultQuery({ code: 1, hashHex: "20261116" })), "02 02 00 08 08 00 0D 01 20 26 11 16");
    same("a query", toHex(compose.composeQuery([0xCA, 0xCB])), "02 02 00 06 08 00 0A 02 CA CB");
}

function deletes() {
    same("of a group slot", bytesOf(compose.deleteGroup({ slot: 0 })), "D1 00 09 80 00 00 00 00 00 00");
    same("of a group contact", bytesOf(compose.deleteGroup({ address: 0x10000B })), "C8 00 0A B0 00 01 10 00 0B 00 00");
    same("of an individual slot", bytesOf(compose.deleteIndividual({ slot: 15 })), "D2 00 09 80 0F 00 00 00 00 00");
    same("of an individual contact", bytesOf(compose.deleteIndividual({ address: 0x100002 })), "C9 00 09 80 01 10 00 02 00 00");
    same("of a line slot", bytesOf(compose.deleteLine({ slot: 1 })), "D3 00 07 80 01 0F 00 00");
    same("of a line", bytesOf(compose.deleteLine({ digits: "2346" })), "CA 00 09 80 01 23 46 FF 00 00");
    same("of a quick text", bytesOf(compose.deleteQuickText({ index: 3 })), "CC 00 06 81 03 00 00");
    same("of a status text", bytesOf(compose.deleteStatusText({ code: 32 })), "D0 00 07 80 01 20 00 00");
    same("of channels", bytesOf(compose.deleteChannels([640])), "CE 00 06 80 01 28 0F");
}

// A parsed setting as what writes it; reserved bits are 0 in both.
function again(setting) {
    const entries = setting.entries.map(({ values, units }) => ({ ...values, text: String.fromCharCode(...(units || [])) }));
    return { type: setting.type, values: setting.values, entries };
}

function shiftAgain(root) {
    const records = parseRecords(new Uint8Array(readFileSync(`${root}/crates/shift/stdin`))).records;
    const requests = records.map(({ message }) => message).filter((message) => parseMessage(message).kind === "request");
    for (const message of requests) same("a request of the shift", toHex(compose.composeRequest(parseMessage(message).settings.map(again))), toHex(message));
    const [query] = records.map(({ message }) => message).filter((message) => parseMessage(message).kind === "resultQuery");
    same("its query", toHex(compose.composeResultQuery({ code: 1, hashHex: parseMessage(query).values.hashValue })), toHex(query));
    return `${requests.length} requests`;
}

// The names that a form and a setting's values share.
const sharedNames = [
    "attribute", "broadcast", "encryption", "ovcm", "emergency", "priority", "idType", "slot",
    "current", "group", "voice", "status", "siren", "nzi", "np", "lai", "la", "roaming", "par",
];
const kept = (text) => text.replace(/[\uD800-\uDBFF](?![\uDC00-\uDFFF])|(?<![\uD800-\uDBFF])[\uDC00-\uDFFF]/g, "\uFFFD");

// What a form says comes back from the setting that was made of it, by the form's own names.
function comesBack(form, setting, make) {
    const values = { ...setting.values, slot: setting.values.index };
    const number = (value) => (value === undefined ? 0 : Number(value));
    const given = sharedNames.filter((name) => form[name] !== undefined);
    same(`the fields of ${make}`, given.map((name) => [name, number(values[name])]), given.map((name) => [name, number(form[name])]));
    if (form.op !== undefined) same("the operation", setting.op, form.op);
    const one = [{ address: form.address, digits: form.digits, name: form.name, index: form.index, code: form.code }];
    const entries = form.entries || (form.channels ? form.channels.map((channel) => ({ channel })) : one);
    setting.entries.forEach((entry, at) => {
        const must = entries[at];
        const has = { address: entry.address, digits: entry.digits, channel: entry.channel, index: entry.values.index, code: entry.values.code };
        Object.keys(has).filter((key) => must[key] !== undefined).forEach((key) => same(`${key} of ${make}`, has[key], must[key]));
        const text = must.name === undefined ? must.text : must.name;
        if (text !== undefined) same(`the text of ${make}`, [entry.text, String.fromCharCode(...entry.units)], [kept(text), text]);
    });
    if (form.entries || form.channels) same("how many entries", setting.entries.length, entries.length);
}

function roundTrips(rounds) {
    let settings = 0;
    for (let each = 0; each < rounds; each++) {
        const { coding, chosen, last, bytes } = randomRequest();
        const message = parseMessage(bytes);
        must("it is whole, with true lengths", message.whole && message.settings.every((setting) => setting.lengthFits));
        const count = chosen.length + (last ? 1 : 0);
        same("its head", [message.coding, message.version, message.count, message.values.length], [coding, 1, count, bytes.length - 4]);
        chosen.forEach(({ make, form }, at) => comesBack(form, message.settings[at], make));
        if (last) {
            const { reboot, reply, hashCode, hashValue } = message.settings[chosen.length].values;
            same("the last item", [reboot, reply, hashCode, hashValue || ""], [Number(last.reboot), Number(last.reply), last.code, last.hashHex]);
        }
        same("written again", toHex(compose.composeRequest(message.settings.map(again), { coding })), toHex(bytes));
        settings += message.count;
    }
    return `${rounds} requests of ${settings} settings`;
}

// Out of range for the library, but bytes all the same; what is wider than its field is cut.
function faultsAreWritten() {
    same("an address", bytesOf(compose.nameGroup({ slot: 0, address: 5 }), 4), "D1 00 08 70 00 00 00 05 00");
    same("a wide address", bytesOf(compose.nameGroup({ slot: 17, address: 0x1FFFFFF }), 4), "D1 00 08 70 01 FF FF FF 00");
    same("attribute 0", bytesOf(compose.nameGroup({ slot: 0, address: 0x100001, attribute: 0 }), 4), "D1 00 08 40 00 10 00 01 00");
    same("a channel", bytesOf(compose.setChannels({ channels: [1, 4095] })), "CE 00 07 40 02 00 1F FF");
    same("a code", bytesOf(compose.statusText({ code: 31 }), 4), "D0 00 06 40 01 1F 00");
    same("digits A to E", bytesOf(compose.addLine({ digits: "AbE" }), 4), "CA 00 07 40 01 AB EF 00");
    same("no digits", bytesOf(compose.addLine({ digits: "" }), 4), "CA 00 06 40 01 FF 00");
    same("a long text", compose.writeSetting(compose.quickText({ index: 0, text: "x".repeat(200) }), 4).length, 206);
    same("a hash of other bytes", bytesOf(compose.lastItem({ code: 3, hashHex: "01" })), "FF 00 04 03 01");
    same("an FF in the middle", parseMessage(compose.composeRequest([compose.lastItem({}), compose.setHomeNumbers({ nzi: 1, np: 807 })])).count, 2);
    same("no settings", toHex(compose.composeRequest([])), "02 02 00 04 08 07 08 00");
}

// What no bytes can say: each throws with a key that has words.
function noBytes() {
    const { composeRequest, setLines, addLine, quickText, lastItem, setQuickTexts, setChannels, setHomeNumbers, nameGroup } = compose;
    const many = (count, each) => Array.from({ length: count }, () => each);
    const cases = [
        ["compose.digits", () => bytesOf(addLine({ digits: "12-3" }))],
        ["compose.digits", () => bytesOf(addLine({ digits: "1F" }))],
        ["compose.unit", () => bytesOf(quickText({ index: 0, text: "a\0b" }))],
        ["compose.eight", () => bytesOf(quickText({ index: 0, text: "组" }), 4)],
        ["compose.entries", () => bytesOf(setLines({ entries: many(256, { digits: "1" }) }))],
        ["compose.entries", () => bytesOf(setQuickTexts({ entries: many(64, { index: 1, text: "x" }) }))],
        ["compose.entries", () => bytesOf(setChannels({ channels: many(1024, 241) }))],
        ["compose.dataLength", () => bytesOf(quickText({ index: 0, text: "x".repeat(40000) }))],
        ["compose.message", () => composeRequest(many(3, quickText({ index: 0, text: "x".repeat(15000) })))],
        ["compose.settings", () => composeRequest(many(256, setHomeNumbers({ nzi: 1, np: 1 })))],
        ["compose.settings", () => composeRequest(many(255, setHomeNumbers({ nzi: 1, np: 1 })), { send: true })],
        ["compose.hex", () => bytesOf(lastItem({ code: 1, hashHex: "123" }))],
        ["compose.number", () => bytesOf(nameGroup({ slot: -1, address: 1 }))],
        ["compose.number", () => bytesOf(nameGroup({ slot: 0, address: 1.5 }))],
        ["compose.number", () => bytesOf(nameGroup({ slot: 0, address: "x" }))],
        ["compose.coding", () => composeRequest([setHomeNumbers({ nzi: 1, np: 1 })], { coding: 10 })],
    ];
    for (const [key, call] of cases) {
        const error = thrown(call);
        same("its key", [error.message, error.key, hasWords(key)], [key, key, true]);
    }
    same("the character", thrown(() => bytesOf(quickText({ index: 0, text: "a𠮷" }), 4)).values, { character: "𠮷" });
    same("the most entries that fit", [255, 63, 1023], [
        parseMessage(composeRequest([setLines({ entries: many(255, { digits: "1" }) })])).settings[0].entries.length,
        parseMessage(composeRequest([setQuickTexts({ entries: many(63, { index: 1, text: "x" }) })])).settings[0].entries.length,
        parseMessage(composeRequest([setChannels({ channels: many(1023, 241) })])).settings[0].entries.length,
    ]);
    return `${cases.length} cases`;
}

function options() {
    const { composeRequest, lastItem, setHomeNumbers, nameGroup } = compose;
    const home = setHomeNumbers({ nzi: 1, np: 328 });
    const lastOf = (bytes) => parseMessage(bytes).settings.map((setting) => [setting.type, setting.values.reply, setting.values.reboot]).pop();
    same("send", lastOf(composeRequest([home], { send: true })), [0xFF, 1, 0]);
    same("reboot", lastOf(composeRequest([home], { reboot: true })), [0xFF, 0, 1]);
    same("an own FF", parseMessage(composeRequest([home, lastItem({})], { send: true })).settings.map((setting) => setting.values.reply), [undefined, 0]);
    same("a coding of a form", parseMessage(composeRequest([home, nameGroup({ slot: 0, address: 0x100001, name: "A", coding: 4 })])).coding, 4);
    same("a coding of the request", parseMessage(composeRequest([nameGroup({ slot: 0, address: 0x100001, coding: 4 })], { coding: 7 })).coding, 7);
    same("bytes as they are", toHex(composeRequest([Uint8Array.of(0xD4, 0, 2)])), "02 02 00 07 08 07 08 01 D4 00 02");
}

export function composeChecks(root, rounds) {
    held("settings and messages are the bytes known by hand", byHand);
    held("deletes are the bytes known by hand", deletes);
    held("the stored shift is written again as it is", () => shiftAgain(root));
    held("the values of forms come back", () => roundTrips(Math.ceil(rounds / 10)));
    held("what the library should refuse is written", faultsAreWritten);
    held("what no bytes can say throws with a key", noBytes);
    held("send, reboot and coding are as asked", options);
}
