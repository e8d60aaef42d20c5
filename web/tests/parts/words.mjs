// The two languages have the same keys and places, every key that the parts ask is there, and the parts can stand in one script.
import { readFileSync, readdirSync } from "node:fs";
import { Script } from "node:vm";
import { say, setLanguage, getLanguage, hasWords } from "../../parts/say.js";
import { carrierLayout, headLayouts, settingLayouts, reportLayouts, messageKinds, tablePlaces } from "../../parts/layouts.js";
import { parseMessage, parseReport } from "../../parts/wire.js";
import { settingInWords, parameterInWords, answerInWords, fieldInWords, codingInWords } from "../../parts/wire-words.js";
import { parseHex } from "../../parts/records.js";
import { held, same, must } from "./held.mjs";

const places = (text) => (text.match(/\{\w+\}/g) || []).sort();

// The words of a file of the parts, by key.
async function wordsOf(name) {
    return Object.values(await import(`../../parts/${name}`))[0];
}

// Each file of English words has one of Chinese words beside it.
const english = readdirSync(new URL("../../parts", import.meta.url)).filter((name) => /^words.*-en\.js$/.test(name));
const pairs = await Promise.all(english.map(async (name) => [await wordsOf(name), await wordsOf(name.replace("-en", "-zh"))]));

function sameWords(wordsEn, wordsZh) {
    same("keys, in one order", Object.keys(wordsZh), Object.keys(wordsEn));
    for (const [key, text] of Object.entries(wordsEn)) {
        same(`places of ${key}`, places(wordsZh[key]), places(text));
        must(`${key} is a text in both`, text !== "" && wordsZh[key] !== "");
    }
    const own = Object.entries(wordsZh).map(([key, text]) => [key, text.replace(/\{\w+\}/g, "")]);
    same("Chinese texts in English", own.filter(([, text]) => !/[\u4E00-\u9FFF]/.test(text) && /[a-z]{3}/.test(text)), []);
}

function bothLanguages() {
    pairs.forEach(([wordsEn, wordsZh]) => sameWords(wordsEn, wordsZh));
    const keys = pairs.flatMap(([wordsEn]) => Object.keys(wordsEn));
    same("keys of two files", keys.filter((key, at) => keys.indexOf(key) !== at), []);
    same("keys that say does not know", keys.filter((key) => !hasWords(key)), []);
    return `${keys.length} keys in ${pairs.length} files`;
}

const partLines = (root) => readdirSync(`${root}/web/parts`).filter((name) => name.endsWith(".js"))
    .flatMap((name) => readFileSync(`${root}/web/parts/${name}`, "utf8").split("\n").map((line) => ({ name, line })));

function allKeys(root) {
    const settings = Object.values(settingLayouts).flatMap(({ head, entry, one, tail }) => [head, entry, one, tail]);
    const reports = Object.values(reportLayouts).flatMap(({ fields, entry }) => [fields, entry]);
    const layouts = [carrierLayout, ...Object.values(headLayouts), ...settings, ...reports];
    const fields = layouts.flatMap((layout) => (layout || []).map(([key]) => "field." + key));
    const hex = (type) => Number(type).toString(16).toUpperCase();
    const keys = [
        ...fields, "field.type", "field.dataLength", "field.otapVer", "field.msgType", "field.askedType",
        ...Object.keys(settingLayouts).map((type) => "setting." + hex(type)), ...Object.keys(reportLayouts).map((type) => "report." + hex(type)),
        ...messageKinds.map((kind) => "kind." + kind), ...Object.values(settingLayouts).map(({ place }) => "table." + place),
        ...tablePlaces.slice(1).map((place) => "table." + place),
        ...[0, 1, 2, 3, 4, 5, 10, 11, 12, 13, 14, 15, 16, 17, 18, 19, 20, 21, 22].flatMap((number) => ["number." + number, `number.${number}.why`]),
    ];
    same("keys without words", keys.filter((key) => !hasWords(key)), []);
    const parts = partLines(root).map(({ line }) => line).join("\n");
    const asked = [...parts.matchAll(/\bsay\("([^"]+)"\s*[,)]/g)].map((found) => found[1]);
    must("keys are asked", asked.length > 20);
    same("keys that a part asks without words", asked.filter((key) => !hasWords(key)), []);
    return `${new Set([...keys, ...asked]).size} keys asked`;
}

function saying() {
    same("the language at first", getLanguage(), "en");
    same("a missing key", say("no.such"), "⟦no.such⟧");
    same("a missing value", say("answer.failedSetting"), "setting ⟦id⟧");
    same("a value", say("answer.failedSetting", { id: 9 }), "setting 9");
    same("another language once", say("op.add", {}, "zh"), "增加");
    same("switched", [setLanguage("zh"), say("op.add"), setLanguage("xx"), say("op.add")], ["zh", "增加", "en", "add"]);
    same("a name of every object", say("toString"), "⟦toString⟧");
    same("a value with places", say("said.name", { name: "{name}$&" }), "name {name}$&");
}

const settingsOf = (hex) => parseMessage(parseHex("02 02 00 00 08 04 08 01 " + hex).bytes).settings.map(settingInWords)[0];

function sentences() {
    same("a slot", settingsOf("D1 00 09 70 01 10 00 02 41 00"), "D1 Group slot 1: address 100002, name A, member group, priority low [eight-bit characters]");
    same("a deleted slot", settingsOf("D1 00 08 80 01 00 00 00 00"), "D1 Group slot 1: deleted");
    same("lines", settingsOf("CA 00 0C 42 02 23 45 FF 41 00 1F 42 00"), "CA Lines, add: PABX 2345 A; PABX 1 B; priority low [eight-bit characters]");
    same("emptied", settingsOf("CA 00 04 C0 00"), "CA Lines, emptied (replaced by nothing)");
    same("replaced", settingsOf("D0 00 07 C0 01 20 41 00"), "D0 Status texts, replaced by: 32 A [eight-bit characters]");
    same("deleted", settingsOf("CC 00 05 81 3F 00"), "CC Quick texts, delete: 63");
    same("nothing", settingsOf("CE 00 04 40 00"), "CE Scan channels, add: no entries");
    same("flags", settingsOf("C8 00 09 7F C0 01 10 00 0B 00"),
        "C8 Group contacts, add: 10000B; member group, broadcast, encrypted, OVCM, emergency, priority pre-emptive");
    same("the key", settingsOf("CB 00 06 68 10 00 01"), "CB Emergency key: calls group 100001, voice alert, siren");
    same("cut", settingsOf("CB 00 06 68 10"), "CB Emergency key: calls group 000000, voice alert, siren … cut short");
    same("a false length", settingsOf("CD 00 06 07 E4 C0"), "CD Home numbers: NZI 15, NP 806 (DataLength says 6, the fields take 5)");
    same("unknown", settingsOf("D4 00 06"), "Type D4, which is none of the thirteen");
    same("an FF", settingsOf("FF 00 07 C1 20 26 11 16"), "FF Last item: restart, reply wanted, hash 20261116");
    const report = parseReport(parseHex("02 02 00 00 08 07 0B 01 01 02 8A 00 80 00 3F 00 41 00 00 D1 83").bytes).parameters;
    same("a report", report.map(parameterInWords), [
        "8A Line: ID type PABX, Encryption no, Emergency no, Priority low, Index 0, Number 3, Text A", "D1 Unknown type: type not supported",
    ]);
    same("an answer", answerInWords(4, 9).where, "setting 9");
    const cut = parseMessage(parseHex("02 02 00 00 08 04 08 01 CC 00 06 41 05 41 42").bytes).settings[0].entries[0];
    same("a text without an end", cut.fields.map(fieldInWords), ["0", "5", "AB (no end)"]);
    const fields = [{ key: "address", value: 0x100001 }, { key: "coding", value: 10 }, { key: "op", value: 3 }, { key: "siren", value: 1 }];
    same("fields", [...fields.map(fieldInWords), codingInWords(7)], ["100001", "10", "replace", "yes", "16-bit Unicode"]);
    setLanguage("zh");
    same("a slot in Chinese", settingsOf("D1 00 09 70 01 10 00 02 41 00"), "D1 带索引组呼联系人 1：地址 100002，名称 A，参与组，优先级低［8 比特字符］");
    setLanguage("en");
}

// As web/build makes one script of them: imports and the word export are taken out. Names at the left are then one space.
function oneScript(root) {
    const own = ["layouts.js", "wire.js", "compose.js", "records.js", "examples.js", "words-en.js", "words-zh.js", "say.js", "wire-words.js"];
    const lines = partLines(root);
    const files = [...new Set(lines.map(({ name }) => name))];
    same("parts that are not there", own.filter((name) => !files.includes(name)), []);
    same("exports in another form", lines.filter(({ line }) => /^export/.test(line) && !/^export (function|const|class|async function) /.test(line)), []);
    same("imports of several lines", lines.filter(({ line }) => /^import/.test(line) && !/^import \{ [^}]+ \} from "\.\/[\w-]+\.js";$/.test(line)), []);
    const names = lines.map(({ line }) => /^(?:export )?(?:async )?(?:function\*?|const|let|class) (\w+)/.exec(line)).filter(Boolean).map((found) => found[1]);
    same("names that are there twice", names.filter((name, at) => names.indexOf(name) !== at), []);
    const script = lines.filter(({ line }) => !line.startsWith("import ")).map(({ line }) => line.replace(/^export /, "")).join("\n");
    same("the script's syntax", typeof new Script(`"use strict";\n${script}`), "object");
    return `${files.length} parts, ${names.length} names`;
}

export function wordChecks(root) {
    held("both languages have the same keys and places", bothLanguages);
    held("settings, fields, tables, kinds, numbers and all that a part asks have words", () => allKeys(root));
    held("texts are said in the language chosen", saying);
    held("settings and parameters are said in words", sentences);
    held("the parts stand in one script", () => oneScript(root));
    held("lines of the parts have at most 160 characters", () => {
        same("longer ones", partLines(root).filter(({ line }) => line.length > 160).map(({ name, line }) => [name, line.slice(0, 60)]), []);
    });
}
