// The office: a report that is asked and read, and a short update that is proposed and checked between the set and the other one.
import { say } from "./say.js";
import { Office } from "./engine.js";
import { composeQuery } from "./compose.js";
import { settingInWords, fieldInWords } from "./wire-words.js";
import { app, addView, refresh, addNext, chosenMessage } from "./view-app.js";
import { requestInWords } from "./view-other.js";
import { el, byId, fill, button, announce, hexByte, hexBytes } from "./view-dom.js";

const TYPES = [0xC8, 0xC9, 0xCA, 0xCB, 0xCC, 0xCD, 0xCE, 0xCF, 0xD0, 0xFF];
const ENTRY_FIELDS = [
    "index", "code", "address", "idType", "digits", "text", "channel", "attribute", "priority", "broadcast", "encryption", "ovcm", "emergency",
    "current", "group", "voice", "status", "siren", "nzi", "np", "lai", "la", "roaming", "par",
];
const FIELD_OF = { digits: "number" };
const office = { reader: null, asked: new Set([0xC8, 0xCA]), report: null, proposal: null, checked: null };

// Every message of the report, and what the office's reader reads of each.
function ask() {
    const types = TYPES.filter((type) => office.asked.has(type));
    const query = composeQuery(types);
    const first = app.set.report(query, 1);
    office.report = { query, number: first.number, messages: [] };
    for (let index = 1; first.number === 0 && index <= first.total; index++) {
        const { bytes } = app.set.report(query, index);
        office.report.messages.push({ bytes, read: office.reader.readReport(bytes, app.kind) });
    }
    const values = { count: first.total, number: first.number, words: say(`number.${first.number}`) };
    announce(say(first.number === 0 ? "page.reported" : "page.reportRefused", values));
    refresh();
}

function typeBox(type) {
    return el("label", { class: "check" }, el("input", {
        type: "checkbox", "data-key": `ask-${type}`, checked: office.asked.has(type),
        onchange: (event) => (event.target.checked ? office.asked.add(type) : office.asked.delete(type)),
    }), el("span", {}, `${hexByte(type)} ${say(`setting.${hexByte(type)}`)}`));
}

function asField(value) {
    return typeof value === "boolean" ? Number(value) : value;
}

// What the office's reader says of a parameter; the bytes are not looked at again.
function entryInWords(entry) {
    const name = `${hexByte(entry.type)} ${say(`setting.${hexByte(entry.type)}`)}`;
    if (entry.unknown) return say("page.typeUnknown", { type: hexByte(entry.type) });
    const said = ENTRY_FIELDS.filter((key) => entry[key] !== undefined && entry[key] !== null)
        .map((key) => `${say(`field.${FIELD_OF[key] ?? key}`)} ${fieldInWords({ key, value: asField(entry[key]) })}`);
    if (entry.hash) said.push(`${say("field.hashCode")} ${entry.hash.code}`, `${say("field.hashValue")} ${hexBytes(entry.hash.bytes) || "–"}`);
    return `${name}: ${said.join(", ")}`;
}

function reportMessage({ bytes, read }, each) {
    return el("details", { open: each === 0 },
        el("summary", {}, say("page.reportMessage", { index: read.index, total: read.total, count: read.count, bytes: bytes.length })),
        el("p", { class: "mono wrap" }, hexBytes(bytes)),
        el("ol", {}, read.entries.map((entry) => el("li", {}, entryInWords(entry)))));
}

function reportBox() {
    const { report } = office;
    return el("div", { id: "report" }, el("h4", {}, say("page.reportHead")), el("p", {}, say("page.reportHelp")),
        el("fieldset", {}, el("legend", {}, say("page.askFor")), TYPES.map(typeBox)), button("page.ask", ask),
        report && el("p", {}, say("page.query"), " ", el("span", { class: "mono" }, hexBytes(report.query))),
        report && report.number !== 0 && el("p", {}, say("page.reportRefused", { number: report.number, words: say(`number.${report.number}`) })),
        report && report.messages.map(reportMessage));
}

function propose() {
    const { number, bytes } = office.reader.propose(app.kind, app.set.store(), app.other.store());
    office.proposal = { number, bytes };
    office.checked = number === 0 ? office.reader.checkUpdate(app.kind, app.set.store(), app.other.store(), bytes) : null;
    announce(say(number === 0 ? "page.proposed" : "page.notProposed", { number, words: say(`number.${number}`) }));
    refresh();
}

function check(message) {
    office.proposal = { number: 0, bytes: message };
    office.checked = office.reader.checkUpdate(app.kind, app.set.store(), app.other.store(), message);
    announce(say(office.checked.yes ? "page.updateYes" : "page.updateNo"));
    refresh();
}

function proposalLines() {
    const { proposal, checked } = office;
    if (!proposal) return null;
    if (proposal.number !== 0) return el("p", { role: "status" }, `${proposal.number}: ${say(`number.${proposal.number}`)}`);
    return el("div", { role: "status" }, el("p", {}, el("strong", {}, say(checked.yes ? "page.updateYes" : "page.updateNo"))),
        requestInWords(proposal.bytes, settingInWords), el("p", { class: "mono wrap" }, hexBytes(proposal.bytes)),
        button("page.proposalNext", () => addNext(proposal.bytes)));
}

function updateBox() {
    const kinds = app.kind === app.other.kind;
    return el("div", { id: "update" }, el("h4", {}, say("page.updateHead")), el("p", {}, say("page.updateHelp")),
        !kinds && el("p", {}, say("page.updateKinds")),
        el("div", { class: "row" }, button("page.propose", propose, { disabled: !kinds }),
            button("page.checkChosen", () => check(chosenMessage()), { disabled: !kinds || !chosenMessage() })),
        kinds && proposalLines());
}

export function startOffice() {
    office.reader = new Office(app.modules);
    addView(() => {
        if (app.running) return;
        fill(byId("office"), reportBox(), updateBox());
    });
}
