// records.js: record files, hexadecimal text and links, whole and damaged.
import { readFileSync } from "node:fs";
import { parseRecords, writeRecords, parseHex, toHex, toFragment, fromFragment, linkBytes } from "../../parts/records.js";
import { hasWords } from "../../parts/say.js";
import { held, same, must } from "./held.mjs";
import { below, pick, randomBytes } from "./random.mjs";

const hexes = (text) => {
    const read = parseHex(text);
    return read.fault ? read : read.messages.map(toHex);
};

function files(root) {
    const input = parseHex("0F 00 04 00 02 02 00 0B 08 07 08 01 CE 00 06 C0 01 0F 1F").bytes;
    same("document 01's record", parseRecords(input), { records: [{ kind: 4, message: input.slice(4), from: 0 }], cut: false, from: 19 });
    for (let length = 1; length < input.length; length++) same("a cut record", parseRecords(input.slice(0, length)), { records: [], cut: true, from: 0 });
    same("no records", parseRecords(new Uint8Array(0)), { records: [], cut: false, from: 0 });
    const shift = new Uint8Array(readFileSync(`${root}/crates/shift/stdin`));
    const read = parseRecords(shift);
    same("the shift", [read.records.length, read.cut, read.records[1].from], [6, false, 284]);
    same("written again", toHex(writeRecords(read.records)), toHex(shift));
    same("a kind of two bytes", toHex(writeRecords([{ kind: 0x1234, message: Uint8Array.of(7) }, Uint8Array.of(8)])), "01 00 34 12 07 01 00 00 00 08");
    same("a message of 300 bytes", parseRecords(writeRecords([new Uint8Array(300)])).records[0].message.length, 300);
    same("one with no record", writeRecords([new Uint8Array(70000)]).length, 65539);
}

// One message a line, or with blank lines between; bytes with what people put around them.
function hexTexts() {
    same("spaces", hexes(" 02 02\t00 "), ["02 02 00"]);
    same("none", hexes("0202aAfF"), ["02 02 AA FF"]);
    same("0x", hexes("0x02, 0X0a,0xff"), ["02 0A FF"]);
    same("0x without spaces", hexes("0x020x0A"), ["02 0A"]);
    same("colons", hexes("02:02:00"), ["02 02 00"]);
    same("lines", hexes("01 02\r\n03\n\n"), ["01 02", "03"]);
    same("blank lines", hexes("\n01 02\n03\n \n04\n05\n"), ["01 02 03", "04 05"]);
    same("a message that is wrapped", hexes("02 02 00 04 08 07\n08 01\n02 02 00 03 08 00 09"), ["02 02 00 04 08 07 08 01", "02 02 00 03 08 00 09"]);
    same("a cut one before another", hexes("02 02 00 09 08 07\n02 02 00 03 08 00 09"), ["02 02 00 09 08 07", "02 02 00 03 08 00 09"]);
    same("a letter", parseHex("02 02\n0g"), { fault: "hex.character", at: 7, character: "g" });
    same("another letter", parseHex("02 zz"), { fault: "hex.character", at: 3, character: "z" });
    same("half a byte", parseHex("02 0"), { fault: "hex.half", at: 3, character: "0" });
    same("0x alone", parseHex("0x"), { fault: "hex.character", at: 1, character: "x" });
    same("nothing", parseHex(" \n"), { fault: "hex.none", at: 0 });
    same("Chinese", parseHex("02组"), { fault: "hex.character", at: 2, character: "组" });
    const long = "02 ".repeat(200000);
    same("a long text", [parseHex(long).bytes.length, parseHex(`${long}\n${long}\n\n02`).bytes.length], [200000, 400000]);
    for (let each = 0; each < 2000; each++) {
        const messages = Array.from({ length: 1 + below(4) }, randomBytes).filter((bytes) => bytes.length > 0);
        if (messages.length > 1) same("messages with blank lines", hexes(messages.map(toHex).join("\n\n")), messages.map(toHex));
    }
}

function links() {
    for (let each = 0; each < 2000; each++) {
        const messages = Array.from({ length: below(5) }, randomBytes);
        const state = { messages, position: below(messages.length + 1), kind: pick(["handheld", "vehicle"]), language: pick(["en", "zh"]) };
        same("a link", fromFragment(toFragment(state).fragment), state);
    }
    const state = { messages: [Uint8Array.of(2, 2, 0, 0, 8, 7, 8, 0)], position: 1, kind: "vehicle", language: "zh" };
    const { fragment } = toFragment(state);
    must("letters of a link", /^#v1=[A-Za-z0-9_.-]+$/.test(fragment));
    same("without #", fromFragment(fragment.slice(1)), state);
    same("none", [fromFragment(""), fromFragment("#")], [{ none: true }, { none: true }]);
    same("another one", ["#top", "#v2=abc", null].map((text) => fromFragment(text).fault), ["link.unknown", "link.version", "link.unknown"]);
    const tooMany = [new Uint8Array(linkBytes), new Uint8Array(1)];
    same("too many bytes", toFragment({ messages: tooMany }), { fault: "link.tooLong", bytes: linkBytes + 1, most: linkBytes });
    must("the most", fromFragment(toFragment({ messages: [new Uint8Array(linkBytes)] }).fragment).messages[0].length === linkBytes);
    const faults = ["link.tooLong", "link.unknown", "link.version", "link.damaged", "hex.half", "hex.character", "hex.none", "record.cut"];
    same("faults without words", faults.filter((key) => !hasWords(key)), []);
}

// A link with a changed, missing or additional letter anywhere is never taken for another.
function damagedLinks() {
    const messages = [Uint8Array.of(2, 2, 0, 6, 8, 0, 9, 0, 0, 0), Uint8Array.of(1, 2, 3)];
    const { fragment } = toFragment({ messages, position: 1, kind: "handheld", language: "en" });
    let tried = 0;
    for (let at = 0; at < fragment.length; at++) {
        for (const letter of ["", "A", "_", "%", ".", "é", fragment[at] + "A"]) {
            const other = fragment.slice(0, at) + letter + fragment.slice(at + 1);
            if (other === fragment || (at === 0 && letter === "")) continue;
            must(`${other} is no link`, fromFragment(other).fault !== undefined);
            tried++;
        }
    }
    for (let each = 0; each < 2000; each++) {
        const text = "#v1=" + String.fromCharCode(...Array.from(randomBytes(), (byte) => (byte < 128 ? 33 + (byte % 90) : byte * 7)));
        must("no link", fromFragment(text).fault === "link.damaged");
    }
    return `${tried} damaged ones`;
}

export function recordChecks(root) {
    held("record files are read as `take` reads them, and written", () => files(root));
    held("hexadecimal text is read as people write it", hexTexts);
    held("links hold messages, position, kind and language", links);
    held("damaged links are told", damagedLinks);
}
