// The examples: messages made of forms, and what a trainer says at which of them. `at` is how many messages are taken by then.
import { nameGroup, nameIndividual, addLine, setGroupContacts, setLines, setChannels, quickText, statusText } from "./compose.js";
import { setStatusTexts, setEmergencyKey, setHomeNumbers, setSystemCode, lastItem, deleteLine, composeRequest } from "./compose.js";
import { parseRecords } from "./records.js";
import { codingEight } from "./layouts.js";

const exampleFirstGroup = 0x100001;
const exampleFirstIndividual = 0x100001;

// The messages of the program `shift`, from its stored input.
function exampleShift(records) {
    return { key: "shift", setKind: "handheld", messages: parseRecords(records).records.map((record) => record.message), steps: [] };
}

function exampleRename() {
    const drawn = ["巡逻一组", "巡逻二组", "巡逻三组", "交警中队"].map((name, at) => ({ address: exampleFirstGroup + at, name }));
    const renamed = [[0, "城南巡逻"], [2, "城东增援"], [1, "城西巡逻"], [3, "交警中队"]];
    const changed = renamed.map(([at, name]) => ({ address: exampleFirstGroup + at, name }));
    const messages = [drawn, changed].map((entries) => composeRequest([setGroupContacts({ op: "replace", entries })], { send: true }));
    const steps = [
        { at: 1, note: "example.rename.drawn", action: { kind: "draw", table: 6, row: 1 } },
        { at: 2, note: "example.rename.changed" },
        { at: 2, note: "example.rename.ptt", action: { kind: "ptt", table: 6, row: 1 } },
    ];
    return { key: "rename", setKind: "handheld", messages, steps };
}

// So many extensions, 2001 and on, named by their desks.
function exampleLines(count) {
    const rooms = ["值班室", "指挥中心", "户籍科", "治安科"];
    const name = (at) => rooms[at % rooms.length] + (Math.floor(at / rooms.length) + 1);
    return Array.from({ length: count }, (_, at) => ({ digits: String(2001 + at), name: name(at) }));
}

function exampleFull() {
    const lines = exampleLines(33);
    const messages = [
        composeRequest([setLines({ op: "replace", idType: 1, entries: lines.slice(0, 32) })], { send: true }),
        composeRequest([statusText({ code: 32, text: "到达现场" }), setLines({ idType: 1, entries: lines.slice(32) })], { send: true }),
        composeRequest([addLine({ idType: 1, digits: "2032", name: "Front desk" })], { coding: codingEight, send: true }),
        composeRequest([deleteLine({ idType: 1, digits: "2001" }), setLines({ idType: 1, entries: lines.slice(32) })], { send: true }),
    ];
    const steps = ["refused", "overwritten", "mended"].map((note, at) => ({ at: at + 2, note: "example.full." + note }));
    return { key: "full", setKind: "handheld", messages, steps };
}

// Twelve settings; the ninth has this status code.
function exampleTwelve(code) {
    const squads = [{ address: exampleFirstGroup + 10, name: "交警中队" }, { address: exampleFirstGroup + 12, name: "治安中队" }];
    return composeRequest([
        nameGroup({ slot: 0, address: exampleFirstGroup, name: "巡逻一组" }),
        nameGroup({ slot: 1, address: exampleFirstGroup + 1, name: "巡逻二组" }),
        nameIndividual({ slot: 0, address: exampleFirstIndividual, name: "李队长" }),
        setGroupContacts({ attribute: 2, entries: squads }),
        setLines({ entries: [{ digits: "110", name: "报警台" }, { digits: "119", name: "消防队" }] }),
        quickText({ index: 0, text: "立即返回集合点" }),
        setChannels({ op: "replace", channels: [241, 360, 640] }),
        setEmergencyKey({ group: true, voice: true, siren: true, address: exampleFirstGroup }),
        setStatusTexts({ op: "replace", entries: [{ code: 32, text: "到达现场" }, { code, text: "处理完毕" }] }),
        setHomeNumbers({ nzi: 15, np: 328 }),
        setSystemCode({ lai: 0x123, la: 8, roaming: 1, par: 0 }),
        lastItem({ code: 1, hashHex: "20261117", reply: true }),
    ]);
}

function exampleNinth() {
    const steps = ["refused", "mended"].map((note, at) => ({ at: at + 1, note: "example.ninth." + note }));
    return { key: "ninth", setKind: "handheld", messages: [exampleTwelve(31), exampleTwelve(33)], steps };
}

function exampleVehicle() {
    const lines = exampleLines(33);
    const messages = [
        composeRequest([
            setLines({ op: "replace", idType: 1, entries: lines.slice(0, 32) }),
            nameGroup({ slot: 0, address: exampleFirstGroup, name: "车巡一组" }),
            setGroupContacts({ op: "replace", entries: [{ address: exampleFirstGroup + 10, name: "交警中队" }] }),
            quickText({ index: 0, text: "请求支援" }),
            setChannels({ op: "replace", channels: [241, 242, 640] }),
        ], { send: true }),
        composeRequest([setLines({ idType: 1, entries: lines.slice(32) })], { send: true }),
    ];
    const steps = [
        { at: 1, note: "example.vehicle.fits", action: { kind: "export", to: "handheld" } },
        { at: 2, note: "example.vehicle.tooMany", action: { kind: "export", to: "handheld" } },
    ];
    return { key: "vehicle", setKind: "vehicle", messages, steps };
}

// All examples; `shiftRecords` is the stored input of the program `shift`. Titles and stories are the keys example.KEY.title and example.KEY.story.
export function makeExamples(shiftRecords) {
    return [exampleShift(shiftRecords), exampleRename(), exampleFull(), exampleNinth(), exampleVehicle()];
}
