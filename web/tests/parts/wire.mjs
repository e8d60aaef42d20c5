// wire.js: what it shows of known messages, of any bytes, and beside what the library answers.
import { readFileSync } from "node:fs";
import { parseMessage, parseReply, parseReport, keyText, textOfUnits } from "../../parts/wire.js";
import { settingInWords, parameterInWords, fieldInWords } from "../../parts/wire-words.js";
import { composeQuery } from "../../parts/compose.js";
import { parseRecords, parseHex } from "../../parts/records.js";
import { setLanguage } from "../../parts/say.js";
import { held, same, must } from "./held.mjs";
import { messageTiles } from "./tiling.mjs";
import { randomRequest, damaged, randomBytes, below, pick } from "./random.mjs";
import { tablesOf, rowsAre } from "./replay.mjs";

const shown = (fields) => fields.map(({ key, from, to, bits, value }) => [key, from, to, bits || null, value]);

// Document 01's message 10, and one with every kind of field that ends by itself.
function knownMessages() {
    const channels = parseMessage(parseHex("02 02 00 0C 08 07 08 01 CE 00 07 C0 02 0F 12 80").bytes);
    same("the carrier", shown(channels.carrier), [
        ["protocol", 0, 1, null, 2], ["service", 1, 2, null, 2], ["length", 2, 4, null, 12], ["mfid", 4, 5, null, 8],
        ["reserved", 5, 6, [7, 4], 0], ["coding", 5, 6, [3, 0], 7],
    ]);
    same("the head", shown(channels.head), [["otapVer", 6, 7, [7, 3], 1], ["msgType", 6, 7, [2, 0], 0], ["paramSum", 7, 8, null, 1]]);
    const [setting] = channels.settings;
    same("the setting", [setting.id, setting.type, setting.name, setting.place, setting.table, setting.op, setting.clears, setting.whole, setting.lengthFits],
        [1, 0xCE, "setting.CE", "channels", null, "replace", true, true, true]);
    same("its fields", shown(setting.fields), [
        ["type", 8, 9, null, 0xCE], ["dataLength", 9, 11, null, 7], ["op", 11, 12, [7, 6], 3], ["reserved", 11, 12, [5, 2], 0], ["count", 11, 13, [9, 0], 2],
    ]);
    same("its channels", setting.entries.map((entry) => shown(entry.fields)[0]), [["channel", 13, 15, [15, 4], 241], ["channel", 14, 16, [11, 0], 640]]);
    const line = parseMessage(parseHex("02 02 00 0E 08 07 08 01 CA 00 09 42 01 23 45 FF 00 00").bytes).settings[0];
    same("a line", shown(line.entries[0].fields), [["number", 13, 16, [23, 4], "2345"], ["fill", 15, 16, [3, 0], 15], ["text", 16, 18, null, ""]]);
    same("a line's key", [line.entries[0].key, line.entries[0].does, line.entries[0].digits], [{ table: 1, idType: 1, digits: "2345" }, "put", "2345"]);
    same("a key's text", keyText(line.entries[0].key), "1:1:2345");
    return "document 01's messages 10 and 11";
}

function knownKinds() {
    const query = parseMessage(parseHex("02 02 00 07 08 00 0D 01 20 26 11 16").bytes);
    same("a result query", [query.kind, query.whole], ["resultQuery", true]);
    same("its hash", shown(query.head).slice(3), [["hashCode", 7, 8, [5, 0], 1], ["hashValue", 8, 12, null, "20261116"]]);
    const reply = parseReply(parseHex("02 02 00 06 08 00 09 04 03 00").bytes);
    same("a reply", [reply.kind, reply.values.cfgResult, reply.values.failedCfgID, reply.values.hashCode], ["reply", 4, 3, 0]);
    const types = parseMessage(parseHex("02 02 00 00 08 00 0A 02 C8 FF").bytes);
    same("a query", [types.kind, types.count, types.types.map((type) => type.value), types.whole], ["query", 2, [0xC8, 0xFF], true]);
    const failed = parseReport(parseHex("02 02 00 00 08 07 0B 01 01 01 D1 83").bytes).parameters;
    same("an error of a report", failed.map((each) => [each.error, each.values.reason, each.whole]), [[true, 3, true]]);
    same("other kinds", [4, 6, 7].map((type) => parseMessage(Uint8Array.of(2, 2, 0, 0, 8, 0, 8 + type)).kind), ["other", "other", "other"]);
    same("short ones", [0, 1, 3, 6].map((length) => parseMessage(new Uint8Array(length)).kind), ["short", "short", "short", "short"]);
    same("units", textOfUnits([0x8D75, 0xD842, 0xDFB7, 0xD842, 0x41, 0xDFB7, 0xD842]), "赵𠮷\uFFFDA\uFFFD\uFFFD");
}

// What a message looks like whose bytes are damaged in one known way.
function knownDamage() {
    const bytes = parseHex("02 02 00 12 08 04 08 02 CC 00 07 42 00 41 42 00 01 43 00 FF 00 03 40").bytes;
    const settings = (of) => parseMessage(of).settings.map((setting) => [setting.id, setting.op, setting.whole, setting.lengthFits, setting.entries.length]);
    same("a false DataLength", settings(bytes), [[1, "add", true, false, 2], [2, null, true, true, 0]]);
    same("a cut text", settings(bytes.slice(0, 18)), [[1, "add", false, false, 2]]);
    same("a missing entry", settings(bytes.slice(0, 16)), [[1, "add", false, false, 1]]);
    same("a type that is none", parseMessage(bytes.with(8, 0xD4)).settings.map((setting) => [setting.name, setting.whole]), [["setting.unknown", false]]);
    same("what is behind it", parseMessage(bytes.with(8, 0xD4)).rest, { from: 11, to: 23 });
    const hash = ["FF 00 07 41 20 26 11", "FF 00 03 43", "FF 00 03 40"].map((hex) => parseMessage(parseHex("02 02 00 00 08 04 08 01 " + hex).bytes));
    const wholes = hash.map((message) => [message.whole, message.settings[0].whole]);
    same("a cut hash, one of an unknown code, and none", wholes, [[false, false], [false, false], [true, true]]);
    same("a query with a cut hash", parseMessage(parseHex("02 02 00 00 08 04 0D 01 20 26").bytes).whole, false);
    const slot = parseMessage(parseHex("02 02 00 00 08 04 08 01 D1 00 08 F0 00 10 00 01 00").bytes).settings;
    same("a replace of a slot does nothing", slot.map((each) => [each.op, each.does, each.clears]), [["replace", null, false]]);
}

// Settings whose reserved bits are all 1, as bytes by hand: what each says, and its reserved bits.
const reservedOnes = [
    ["C8 00 09 7F FF 01 10 00 0B 00", { priority: 3, count: 1 }, 63], ["C9 00 08 43 01 10 00 0B 00", { priority: 0, count: 1 }, 3],
    ["CA 00 07 41 01 12 FF 00", { idType: 0, count: 1 }, 1], ["CB 00 03 8F", { current: 1, siren: 1 }, 7],
    ["CC 00 06 41 FF 41 00", { count: 1 }, undefined], ["CD 00 05 07 E4 DF", { nzi: 15, np: 806 }, 31],
    ["CE 00 06 7C 01 0F 1F", { count: 1 }, 15], ["CF 00 05 12 38 5F", { lai: 0x123, la: 8, roaming: 1, par: 0 }, 31],
    ["D0 00 07 7F 01 20 41 00", { count: 1 }, 63], ["D1 00 08 70 35 10 00 01 00", { priority: 0, index: 5 }, 3],
    ["D2 00 08 43 F5 10 00 01 00", { priority: 0, index: 5 }, 63], ["D3 00 07 43 F5 12 FF 00", { idType: 1, index: 5 }, 31],
];

function reservedBits(set) {
    const hex = `02 02 00 00 08 F4 08 0C ${reservedOnes.map(([bytes]) => bytes).join(" ")}`;
    const bytes = parseHex(hex).bytes;
    const message = parseMessage(bytes);
    messageTiles(bytes, message);
    must("it is whole, with true lengths", message.whole && message.settings.every((setting) => setting.lengthFits));
    message.settings.forEach((setting, at) => {
        const [, says, ones] = reservedOnes[at];
        same(`what ${setting.name} says`, Object.fromEntries(Object.keys(says).map((key) => [key, setting.values[key]])), says);
        same("its reserved bits", setting.fields.filter(({ key }) => key === "reserved").map(({ value }) => value)[0], ones);
    });
    same("the carrier's, and a quick text's", [message.carrier[4].value, message.settings[4].entries[0].fields[0].value], [15, 3]);
    same("the quick text's index", message.settings[4].entries[0].key, { table: 2, index: 63 });
    if (!set) return;
    set.start();
    same("the library's answer", set.take(bytes).number, 0);
}

// In both languages, with no key that has no words.
function saysAll(message) {
    const said = [...message.settings.map(settingInWords), ...message.parameters.map(parameterInWords)];
    const fields = [...message.carrier, ...message.head, ...message.settings.flatMap((setting) => setting.fields)];
    must("a sentence without a missing key", ![...said, ...fields.map(fieldInWords)].join("").includes("⟦"));
}

function anyBytes(rounds) {
    const kinds = {};
    for (let each = 0; each < rounds; each++) {
        const bytes = below(3) === 0 ? randomBytes() : damaged(randomRequest().bytes);
        const message = pick([parseMessage, parseMessage, parseMessage, parseMessage, parseReply, parseReport])(bytes);
        messageTiles(bytes, message);
        setLanguage(pick(["en", "zh"]));
        saysAll(message);
        kinds[message.kind] = (kinds[message.kind] || 0) + 1;
    }
    setLanguage("en");
    must("every kind is tried", Object.keys(kinds).length === 7);
    return `${rounds} messages: ${Object.entries(kinds).map(([kind, count]) => `${kind} ${count}`).join(", ")}`;
}

// The settings before the first at fault can be read, and all of a request that is taken; a reply says the answer.
function besideAnswer(message, answer) {
    const fits = (setting) => setting.whole && setting.lengthFits;
    const isRequest = message.kind === "request";
    if (answer.number === 0 && isRequest) must("a request that is taken is whole", message.whole && message.settings.every(fits));
    const before = message.settings.slice(0, Math.max(0, answer.failed - 1)).filter(fits);
    if (isRequest && answer.failed > 0) same("settings before the fault", before.length, answer.failed - 1);
    if (answer.number === 3) same("a type that is none", message.settings[answer.failed - 1].place, null);
    if (answer.reply.length === 0) return;
    const reply = parseReply(answer.reply);
    messageTiles(answer.reply, reply);
    same("the reply", [reply.whole, reply.values.cfgResult, reply.values.failedCfgID], [true, answer.number, answer.failed]);
}

// Mostly without a length, so that it is not the carrier which is refused.
function unstated(bytes) {
    return bytes.length < 4 || below(8) === 0 ? bytes : bytes.with(2, 0).with(3, 0);
}

function besideLibrary(set, rounds) {
    const numbers = {};
    let log = [];
    for (let each = 0; each < rounds; each++) {
        if (each % 40 === 0) set.start();
        if (each % 40 === 0) log = [];
        const bytes = below(2) === 0 ? unstated(damaged(randomRequest().bytes)) : randomRequest().bytes;
        const answer = set.take(bytes);
        const message = parseMessage(bytes);
        besideAnswer(message, answer);
        if (answer.number === 0 && message.kind === "request") log.push(message);
        if (each % 10 === 9) rowsAre(set, tablesOf(log));
        numbers[answer.number] = (numbers[answer.number] || 0) + 1;
    }
    must("requests are taken and refused", numbers[0] > rounds / 4 && numbers[3] > 0 && numbers[4] > 0);
    return Object.entries(numbers).map(([number, count]) => `${number} ${count} times`).join(", ");
}

// What a set reports, after a shift and some requests, is read to its end, with the addresses, digits and texts of its tables.
function reports(set, rounds) {
    let parameters = 0;
    for (let each = 0; each < rounds; each++) {
        set.start();
        const log = Array.from({ length: 12 }, () => randomRequest().bytes).filter((bytes) => set.take(bytes).number === 0).map(parseMessage);
        const query = composeQuery([0xC8, 0xC9, 0xCA, 0xCB, 0xCC, 0xCD, 0xCE, 0xCF, 0xD0, 0xFF]);
        const { number, total, bytes } = set.report(query, 1);
        const message = parseReport(bytes);
        messageTiles(bytes, message);
        same("a report", [number, total, message.whole, message.values.dpCount, message.parameters.length], [0, 1, true, 1, message.count]);
        const tables = tablesOf(log);
        const keys = [6, 7, 1].flatMap((table) => [...tables[table].keys()]);
        same("its contacts", message.parameters.filter((one) => one.table === 6 || one.table === 7 || one.table === 1).map((one) => keyText(one.key)), keys);
        parameters += message.parameters.length;
    }
    return `${rounds} reports of ${parameters} parameters`;
}

export function wireChecks(root, rounds, handheld) {
    held("known messages are shown field by field", knownMessages);
    held("each kind of message is shown", knownKinds);
    held("damaged messages are shown as far as they can be read", knownDamage);
    held("the stored shift is whole", () => {
        const messages = parseRecords(new Uint8Array(readFileSync(`${root}/crates/shift/stdin`))).records.map((record) => parseMessage(record.message));
        same("kinds", messages.map((message) => message.kind), ["request", "request", "request", "request", "resultQuery", "reply"]);
        same("whole", messages.map((message) => message.whole && message.settings.every((each) => each.lengthFits)), Array(6).fill(true));
        same("a name of the shift", [messages[1].settings[0].entries[0].text, messages[1].settings[0].entries[0].key], ["增援二组", { table: 4, index: 1 }]);
    });
    held("reserved bits are shown and change nothing", () => reservedBits(handheld));
    held("fields tile any bytes and say their bits, and nothing throws", () => anyBytes(rounds));
    if (handheld) held("what the library takes and refuses, and its rows, are what is shown", () => besideLibrary(handheld, Math.max(300, Math.ceil(rounds / 10))));
    if (handheld) held("what the library reports is shown", () => reports(handheld, Math.ceil(rounds / 500)));
}
