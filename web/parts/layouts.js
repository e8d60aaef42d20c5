// The fields of every message, in bits, in the order in which they stand; a width in words is of a field that ends by itself.

const layoutGroupFlags = [["attribute", 2], ["broadcast", 1], ["encryption", 1], ["ovcm", 1], ["emergency", 1], ["priority", 2]];
const layoutFlags = [["encryption", 1], ["emergency", 1], ["priority", 2]];
const layoutNamed = [["address", 24], ["text", "text"]];
const layoutNumbered = [["number", "number"], ["text", "text"]];
const layoutResult = [["result", 1], ["reason", 7]];

// The tables of the screen by their numbers; the other places of a set have none.
export const tablePlaces = [
    null, "lines", "quickTexts", "statusTexts", "groups", "individuals", "groupContacts", "individualContacts", "lineSlots",
];

// Carrier, and what stands behind OTAPVer and MsgType by kind of message.
export const carrierLayout = [["protocol", 8], ["service", 8], ["length", 16], ["mfid", 8], ["reserved", 4], ["coding", 4]];
export const headLayouts = {
    request: [["paramSum", 8]],
    reply: [["cfgResult", 8], ["failedCfgID", 8], ["reserved", 2], ["hashCode", 6], ["hashValue", "hash"]],
    query: [["paramTypeSum", 8]],
    report: [["dpCount", 8], ["dpIndex", 8], ["paramSum", 8]],
    resultQuery: [["reserved", 2], ["hashCode", 6], ["hashValue", "hash"]],
};
export const messageKinds = ["request", "reply", "query", "report", "other", "resultQuery", "other", "other"];

// A setting: fields behind DataLength (head), then one entry (one) or as many as Count says (entry).
export const settingLayouts = {
    0xC8: { place: "groupContacts", head: [["op", 2], ...layoutGroupFlags, ["reserved", 6], ["count", 8]], entry: layoutNamed },
    0xC9: { place: "individualContacts", head: [["op", 2], ...layoutFlags, ["reserved", 2], ["count", 8]], entry: layoutNamed },
    0xCA: { place: "lines", head: [["op", 2], ...layoutFlags, ["idType", 1], ["reserved", 1], ["count", 8]], entry: layoutNumbered },
    0xCB: {
        place: "emergencyKey",
        head: [["current", 1], ["group", 1], ["voice", 1], ["status", 1], ["siren", 1], ["reserved", 3], ["address", "unlessCurrent"]],
    },
    0xCC: { place: "quickTexts", head: [["op", 2], ["count", 6]], entry: [["reserved", 2], ["index", 6], ["text", "text"]] },
    0xCD: { place: "homeNumbers", head: [["nzi", 9], ["np", 10], ["reserved", 5]] },
    0xCE: { place: "channels", head: [["op", 2], ["reserved", 4], ["count", 10]], entry: [["channel", 12]], tail: [["fill", "fill"]] },
    0xCF: { place: "systemCode", head: [["lai", 12], ["la", 4], ["roaming", 2], ["par", 1], ["reserved", 5]] },
    0xD0: { place: "statusTexts", head: [["op", 2], ["reserved", 6], ["count", 8]], entry: [["code", 8], ["text", "text"]] },
    0xD1: { place: "groups", head: [["op", 2], ...layoutGroupFlags, ["reserved", 2], ["index", 4]], one: layoutNamed },
    0xD2: { place: "individuals", head: [["op", 2], ...layoutFlags, ["reserved", 6], ["index", 4]], one: layoutNamed },
    0xD3: { place: "lineSlots", head: [["op", 2], ...layoutFlags, ["idType", 1], ["reserved", 5], ["index", 4]], one: layoutNumbered },
    0xFF: { place: "hash", head: [["reboot", 1], ["reply", 1], ["hashCode", 6], ["hashValue", "hash"]] },
};

// A parameter of a report: fields behind its type byte; an error of any byte has the result alone.
export const reportLayouts = {
    0x88: {
        place: "groupContacts", asked: 0xC8,
        fields: [...layoutResult, ["address", 24], ["index", 4], ...layoutGroupFlags, ["reserved", 4], ["text", "text"]],
    },
    0x89: { place: "individualContacts", asked: 0xC9, fields: [...layoutResult, ["address", 24], ["index", 4], ...layoutFlags, ["text", "text"]] },
    0x8A: {
        place: "lines", asked: 0xCA,
        fields: [...layoutResult, ["idType", 1], ...layoutFlags, ["reserved", 7], ["index", 4], ["number", "number"], ["text", "text"]],
    },
    0x8B: {
        place: "emergencyKey", asked: 0xCB,
        fields: [...layoutResult, ["group", 1], ["current", 1], ["voice", 1], ["status", 1], ["siren", 1], ["reserved", 3], ["address", 24]],
    },
    0x8C: { place: "quickTexts", asked: 0xCC, fields: [...layoutResult, ["index", 6], ["reserved", 2], ["text", "text"]] },
    0x8D: { place: "homeNumbers", asked: 0xCD, fields: [...layoutResult, ["nzi", 9], ["np", 10], ["reserved", 5]] },
    0x8E: { place: "channels", asked: 0xCE, fields: [...layoutResult, ["channel", 12], ["index", 12]] },
    0x8F: { place: "systemCode", asked: 0xCF, fields: [...layoutResult, ["lai", 12], ["la", 4], ["roaming", 2], ["par", 1], ["reserved", 5]] },
    0x90: { place: "statusTexts", asked: 0xD0, fields: [...layoutResult, ["code", 8], ["index", 8], ["text", "text"]] },
    0xBF: { place: "hash", asked: 0xFF, fields: [["listCount", 8]], entry: [["hashCode", 8], ["hashValue", "hash"]] },
};
export const reportErrorLayout = layoutResult;

// Bytes of a hash value by HashCode; of other codes nobody knows how many follow.
export const hashBytes = [0, 4, 10];

// The two coding types of a request's texts.
export const codingEight = 4;
export const codingUnicode = 7;
