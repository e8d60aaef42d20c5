// Wrong parts: each edit makes a part wrong in one place, and web/tests/parts.mjs has to end with 1 on it, and with 0 on the parts as they are.
// Run as: node web/tests/parts-wrong.mjs; it prints a line for each edit, and ends with 1 where one is not found.
import { cpSync, mkdirSync, mkdtempSync, readFileSync, rmSync, writeFileSync } from "node:fs";
import { spawnSync } from "node:child_process";
import { tmpdir } from "node:os";
import { fileURLToPath } from "node:url";

const root = fileURLToPath(new URL("../..", import.meta.url));
const modules = process.env.OTAP_MODULES || `${root}/target/archive/wasm32`;

// File, what stands there once, and the wrong text in its place.
const edits = [
    ["layouts.js", `["reserved", 6], ["count", 8]], entry: layoutNamed`, `["reserved", 5], ["count", 9]], entry: layoutNamed`],
    ["layouts.js", `place: "individuals", head: [["op", 2], ...layoutFlags, ["reserved", 6], ["index", 4]]`,
        `place: "individuals", head: [["op", 2], ["reserved", 6], ...layoutFlags, ["index", 4]]`],
    ["layouts.js", `[["nzi", 9], ["np", 10], ["reserved", 5]] },\n    0xCE`, `[["nzi", 10], ["np", 9], ["reserved", 5]] },\n    0xCE`],
    ["layouts.js", `[["lai", 12], ["la", 4], ["roaming", 2], ["par", 1], ["reserved", 5]] },\n    0xD0`,
        `[["lai", 12], ["la", 4], ["par", 1], ["roaming", 2], ["reserved", 5]] },\n    0xD0`],
    ["layouts.js", `[...layoutResult, ["idType", 1], ...layoutFlags,`, `[...layoutResult, ...layoutFlags, ["idType", 1],`],
    ["layouts.js", `hashBytes = [0, 4, 10]`, `hashBytes = [0, 4, 8]`],
    ["layouts.js", `"groups", "individuals", "groupContacts",`, `"individuals", "groups", "groupContacts",`],
    ["wire.js", `["reserved", "add", "delete", "replace"]`, `["reserved", "delete", "add", "replace"]`],
    ["wire.js", `const high = (to - from) * 8 - 1 - (start & 7);`, `const high = (to - from) * 8 - 1;`],
    ["wire.js", `this.whole = this.whole && length === stated;`, ``],
    ["wire.js", `if (table === 1) return has(idType, number) ? { table, idType, digits: number } : null;`,
        `if (table === 1) return has(number) ? { table, digits: number } : null;`],
    ["wire.js", `setting.op === "replace" && setting.does === "put"`, `setting.op === "replace"`],
    ["wire.js", `coding === codingEight ? 1 : 2`, `coding === codingEight ? 2 : 2`],
    ["wire.js", `setting.values.dataLength === setting.to - from - 1`, `setting.values.dataLength === setting.to - from`],
    ["wire.js", `(list.length === 0 || list[list.length - 1].whole)`, `true`],
    ["wire.js", `reader.whole = reader.whole && entries.length === count;`, ``],
    ["wire.js", `bytes[from + 1] >= 0x80`, `bytes[from + 1] >= 0x84`],
    ["compose.js", `if ((this.used & 7) !== 0) this.bits(15, 4);`, `if ((this.used & 7) !== 0) this.bits(0, 4);`],
    ["compose.js", `if (unit >= 2 ** width) throw`, `if (unit >= 2 ** 17) throw`],
    ["compose.js", `const length = writer.out.length + 2;`, `const length = writer.out.length + 3;`],
    ["compose.js", `if (entries.length > most) throw`, `if (entries.length > most + 1) throw`],
    ["compose.js", `digits: digits || "0"`, `digits: digits || ""`],
    ["compose.js", `(send || reboot) && !hasLast`, `(send || reboot)`],
    ["compose.js", `/^[0-9A-Ea-e]*$/`, `/^[0-9A-Fa-f]*$/`],
    ["records.js", `cut = from + 4 + length > bytes.length;`, `cut = from + length > bytes.length;`],
    ["records.js", `kind: bytes[from + 2] + 256 * bytes[from + 3]`, `kind: bytes[from + 3] + 256 * bytes[from + 2]`],
    ["records.js", `|| recordSum(parts[1]) !== parts[2]`, ``],
    ["records.js", `if (bytes > linkBytes) return`, `if (bytes > linkBytes + 1) return`],
    ["records.js", `const joins = open && (isParted || recordGoesOn(last, line));`, `const joins = open && isParted;`],
    ["records.js", `const wrong = isDigit ? at + 1 : at;`, `const wrong = at;`],
    ["examples.js", `messages: [exampleTwelve(31), exampleTwelve(33)]`, `messages: [exampleTwelve(32), exampleTwelve(33)]`],
    ["examples.js", `const messages = [drawn, changed]`, `const messages = [changed, drawn]`],
    ["examples.js", `composeRequest([deleteLine({ idType: 1, digits: "2001" }), `, `composeRequest([deleteLine({ idType: 0, digits: "2001" }), `],
    ["say.js", `"⟦" + key + "⟧"`, `key`],
    ["say.js", `language === "zh" ? "zh" : "en"`, `language`],
    ["words-zh.js", `"answer.failedSetting": "第 {id} 个参数"`, `"answer.failedSetting": "第几个参数"`],
    ["words-zh.js", `    "number.19": "无可建议",\n`, ``],
    ["words-en.js", `    "field.siren": "Siren",\n`, ``],
    ["wire-words.js", `if (setting.does === "delete") return say("said.slotDeleted", place);`, ``],
    ["wire-words.js", `setting.clears ? "said.replaced" : "said.listed"`, `"said.listed"`],
    ["wire-words.js", `if (!setting.whole) return say("said.cut", { said });`, ``],
    ["wire-words.js", `if (field.ended === false) return say("value.notEnded", { value });`, ``],
    ["wire-words.js", `say("said.unknown", { type })`, `say("said.nothing", { type })`],
    ["wire-words.js", `function wordHex`, `// ${"-".repeat(160)}\nfunction wordHex`],
    ["records.js", `messages[messages.length - 1] = last.concat(line);`, `last.push(...line);`],
    ["wire-words.js", `const wordAlerts`, `const wireOperations = 0;\nconst wordAlerts`],
];

const place = mkdtempSync(`${tmpdir()}/parts-wrong-`);
mkdirSync(`${place}/crates/shift`, { recursive: true });
cpSync(`${root}/crates/shift/stdin`, `${place}/crates/shift/stdin`);
cpSync(`${root}/web/tests`, `${place}/web/tests`, { recursive: true });

// How the tests end on the parts with one edit, or with none.
function endOn(edit) {
    cpSync(`${root}/web/parts`, `${place}/web/parts`, { recursive: true });
    if (edit) {
        const [name, right, wrong] = edit;
        const parts = readFileSync(`${place}/web/parts/${name}`, "utf8").split(right);
        if (parts.length !== 2) return { status: -1, first: "the text does not stand there once" };
        writeFileSync(`${place}/web/parts/${name}`, parts.join(wrong));
    }
    const env = { ...process.env, OTAP_MODULES: modules };
    const run = spawnSync(process.execPath, [`${place}/web/tests/parts.mjs`, "--rounds", "1000"], { encoding: "utf8", env });
    const first = (run.stdout.match(/^DIFFERS: .*$/m) || [run.stderr])[0].slice(0, 110);
    return { status: run.status, first };
}

let missed = 0;
const right = endOn(null);
if (right.status !== 0) missed++;
console.log(`${right.status === 0 ? "held" : "DIFFERS"}: the parts as they are ${right.first}`);
for (const edit of edits) {
    const { status, first } = endOn(edit);
    if (status !== 1) missed++;
    console.log(`${status === 1 ? "found" : "MISSED"}: ${edit[0]}: ${edit[2].split("\n")[0].slice(0, 60) || "taken out: " + edit[1].slice(0, 48)} | ${first}`);
}
rmSync(place, { recursive: true });
console.log(`${edits.length} wrong parts, ${missed} missed`);
process.exitCode = missed === 0 ? 0 : 1;
