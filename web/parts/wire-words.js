// Settings, parameters and fields in the words of the current language.
import { say, hasWords } from "./say.js";
import { codingEight, codingUnicode } from "./layouts.js";

const wordFlags = ["broadcast", "encryption", "ovcm", "emergency"];
const wordAlerts = ["voice", "status", "siren"];
const wordYesNo = ["broadcast", "encryption", "ovcm", "emergency", "current", "group", "voice", "status", "siren", "reboot", "reply"];
const wordValues = ["attribute", "priority", "idType", "msgType", "roaming", "par", "hashCode", "result", "reason", "coding"];

function wordHex(value, digits) {
    return value.toString(16).toUpperCase().padStart(digits, "0");
}

// A value that has words of its own, or its `other` words.
function wordValue(key, value) {
    return hasWords(`${key}.${value}`) ? say(`${key}.${value}`) : say(`${key}.other`, { value });
}

function wordOperation(value) {
    return say("op." + ["reserved", "add", "delete", "replace"][value]);
}

// The value of a field as a user reads it.
export function fieldInWords(field) {
    const { key, value } = field;
    if (field.ended === false) return say("value.notEnded", { value });
    if (key === "op") return wordOperation(value);
    if (key === "address") return wordHex(value, 6);
    if (key === "type" || key === "askedType" || key === "protocol" || key === "service" || key === "mfid") return wordHex(value, 2);
    if (key === "text") return value === "" ? say("value.empty") : value;
    if (wordYesNo.includes(key)) return say(value ? "value.yes" : "value.no");
    return wordValues.includes(key) ? wordValue(key, value) : String(value);
}

// "eight-bit characters", "16-bit Unicode" or another coding type by its number.
export function codingInWords(coding) {
    const isText = coding === codingEight || coding === codingUnicode;
    return isText ? say("coding." + coding) : say("coding.other", { value: coding === null ? "-" : coding });
}

function wordJoin(parts) {
    return parts.filter((part) => part !== "").join(say("said.comma"));
}

// Attribute, flags that are set and priority, as far as a setting has them.
function wordFlagsOf(values) {
    const attribute = values.attribute === undefined ? "" : say("attribute." + values.attribute);
    const set = wordFlags.filter((key) => values[key] === 1).map((key) => say("said." + key));
    const priority = values.priority === undefined ? "" : say("said.priority", { priority: say("priority." + values.priority) });
    return wordJoin([attribute, ...set, priority]);
}

function wordName(text) {
    return text === null || text === "" ? say("said.noName") : say("said.name", { name: text });
}

// An entry of a list: what it goes by, and its text.
function wordEntry(setting, entry) {
    const { index, code } = entry.values;
    const text = entry.text || "";
    if (entry.channel !== null) return String(entry.channel);
    if (index !== undefined || code !== undefined) return say("said.indexed", { index: index === undefined ? code : index, text }).trim();
    const idType = say("idType." + (setting.values.idType || 0));
    const who = entry.digits === null ? wordHex(entry.address || 0, 6) : say("said.line", { idType, digits: entry.digits });
    return (who + " " + text).trim();
}

function wordList(setting, type) {
    const table = say(setting.name);
    const op = setting.op === null ? "" : say("op." + setting.op);
    if (setting.clears && setting.entries.length === 0) return say("said.emptied", { type, table });
    if (setting.entries.length === 0) return say("said.noEntries", { type, table, op });
    const entries = setting.entries.map((entry) => wordEntry(setting, entry)).join(say("said.semicolon"));
    const said = say(setting.clears ? "said.replaced" : "said.listed", { type, table, op, entries });
    const flags = setting.does === "put" ? wordFlagsOf(setting.values) : "";
    return flags === "" ? said : say("said.flags", { said, flags });
}

function wordSlot(setting, type) {
    const entry = setting.entries[0];
    const place = { type, name: say(setting.name), index: setting.values.index === undefined ? "" : setting.values.index };
    if (setting.does === "delete") return say("said.slotDeleted", place);
    if (setting.does === null || !entry) return say("said.slotOther", { ...place, op: setting.op === null ? "" : say("op." + setting.op) });
    const idType = say("idType." + (setting.values.idType || 0));
    const address = wordHex(entry.address || 0, 6);
    const who = entry.digits === null ? say("said.address", { address }) : say("said.line", { idType, digits: entry.digits });
    return say("said.slot", { ...place, what: wordJoin([who, wordName(entry.text), wordFlagsOf(setting.values)]) });
}

function wordKey(values, type) {
    const set = wordAlerts.filter((key) => values[key] === 1).map((key) => say("said.alert." + key));
    const alerts = set.length === 0 ? "" : say("said.comma") + wordJoin(set);
    if (values.current === 1) return say("said.keyCurrent", { type, alerts });
    return say(values.group === 1 ? "said.keyGroup" : "said.keyIndividual", { type, address: wordHex(values.address || 0, 6), alerts });
}

// What has one place and no entries: key, numbers, system code and last item. Fields that were not read are empty.
function wordSingle(place, given, type) {
    const values = { nzi: "", np: "", la: "", ...given };
    if (place === "emergencyKey") return wordKey(values, type);
    if (place === "homeNumbers") return say("said.home", { type, nzi: values.nzi, np: values.np });
    const roaming = wordValue("roaming", values.roaming || 0);
    const par = wordValue("par", values.par || 0);
    if (place === "systemCode") return say("said.system", { type, lai: wordHex(values.lai || 0, 3), la: values.la, roaming, par });
    const hash = values.hashCode ? say("said.hash", { value: values.hashValue || wordValue("hashCode", values.hashCode) }) : say("said.noHash");
    const reboot = say(values.reboot ? "said.reboot" : "said.noReboot");
    return say("said.last", { type, reboot, reply: say(values.reply ? "said.reply" : "said.noReply"), hash });
}

function wordSaid(setting, type) {
    if (setting.place === null) return say("said.unknown", { type });
    if (["groups", "individuals", "lineSlots"].includes(setting.place)) return wordSlot(setting, type);
    return setting.op === null && setting.values.count === undefined && ["emergencyKey", "homeNumbers", "systemCode", "hash"].includes(setting.place)
        ? wordSingle(setting.place, setting.values, type)
        : wordList(setting, type);
}

// A sentence for a setting of parseMessage; what is damaged about it is said behind.
export function settingInWords(setting) {
    const said = wordSaid(setting, wordHex(setting.type, 2));
    if (setting.place === null) return said;
    if (!setting.whole) return say("said.cut", { said });
    const isText = setting.entries.some((entry) => entry.text !== null && entry.text !== "");
    const full = isText ? say("said.coding", { said, coding: codingInWords(setting.coding) }) : said;
    const taken = setting.to - setting.from - 1;
    return setting.lengthFits ? full : say("said.falseLength", { said: full, stated: setting.values.dataLength, taken });
}

// A sentence for a parameter of a report.
export function parameterInWords(parameter) {
    const type = wordHex(parameter.type, 2);
    const name = say(parameter.name);
    if (parameter.error) return say("said.reportError", { type: `${type} ${name}`, reason: wordValue("reason", parameter.values.reason || 0) });
    const shown = parameter.fields.filter(({ key }) => !["type", "result", "reason", "reserved", "fill"].includes(key));
    const fields = [...shown, ...parameter.entries.flatMap((entry) => entry.fields)];
    const each = (field) => `${say("field." + field.key)} ${fieldInWords(field)}`;
    const said = `${type} ${name}${say("said.colon")}${fields.map(each).join(say("said.comma"))}`;
    return parameter.whole ? said : say("said.cut", { said });
}

// What an answer of the library means: {short, why, where}; `where` is what the failed ID points at, empty where it says nothing.
export function answerInWords(number, failed) {
    const isPlaced = number >= 2 && number <= 4;
    const where = failed === 0 ? say("answer.failedHead") : say("answer.failedSetting", { id: failed });
    return { short: say("number." + number), why: say(`number.${number}.why`), where: isPlaced ? where : "" };
}
