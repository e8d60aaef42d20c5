// The chosen message: its bytes beside its settings in words. A setting that is at fault is marked in both.
import { say } from "./say.js";
import { parseMessage } from "./wire.js";
import { settingInWords, fieldInWords } from "./wire-words.js";
import { app, addView, chosenMessage, chosenAnswer } from "./view-app.js";
import { el, byId, fill, hexByte } from "./view-dom.js";

const MESSAGE_ROW_BYTES = 16;
const SHOWN_BYTES = 4096;

// Where the fault is, by the library's own answer: a setting, the head, the carrier or the whole message; null where there is none.
export function faultOf(parsed, message, answer) {
    if (!answer || answer.number === 0 || answer.number === 10 || answer.number === 11) return null;
    if ([2, 3, 4].includes(answer.number) && answer.failed > 0) {
        const setting = parsed.settings.find((each) => each.id === answer.failed);
        if (setting) return { id: answer.failed, from: setting.from, to: setting.to };
        const rest = parsed.rest ?? { from: parsed.settings.length ? parsed.settings[parsed.settings.length - 1].to : 8, to: message.length };
        return { id: answer.failed, from: Math.min(rest.from, message.length), to: message.length };
    }
    const heads = { 1: [6, 7], 4: [5, 8], 12: [0, message.length], 13: [0, 5], 14: [6, 7] };
    const [from, to] = heads[answer.number] ?? [0, message.length];
    return { id: 0, from: Math.min(from, message.length), to: Math.min(to, message.length) };
}

function byteCell(byte, at, marks) {
    const classes = ["byte"];
    if (marks.part[at] !== undefined) classes.push(marks.part[at] % 2 ? "odd" : "even");
    if (marks.fault && at >= marks.fault.from && at < marks.fault.to) classes.push("at-fault");
    if (marks.sent && at >= marks.sent.from && at < marks.sent.to) classes.push("sent");
    return el("span", { class: classes.join(" ") }, hexByte(byte));
}

// Rows of bytes; the ones at fault stand in brackets, so that no colour is needed to see them.
export function byteRows(message, marks) {
    const rows = [];
    const end = Math.min(message.length, SHOWN_BYTES);
    for (let from = 0; from < end; from += MESSAGE_ROW_BYTES) {
        const cells = [el("span", { class: "offset" }, from.toString(16).toUpperCase().padStart(4, "0"))];
        for (let at = from; at < Math.min(from + MESSAGE_ROW_BYTES, end); at++) cells.push(byteCell(message[at], at, marks));
        rows.push(el("div", { class: "byte-row" }, cells));
    }
    if (end < message.length) rows.push(el("p", {}, say("page.moreBytes", { count: message.length - end })));
    return rows;
}

function partsOf(parsed) {
    const part = [];
    for (const setting of parsed.settings) for (let at = setting.from; at < setting.to; at++) part[at] = setting.id;
    return part;
}

// A field with its name, in words.
export function fieldLine(field) {
    return `${say(`field.${field.key}`)} ${fieldInWords(field)}`;
}

function headWords(parsed) {
    return el("p", { class: "head" }, say(`kind.${parsed.kind}`), ": ", [...parsed.carrier, ...parsed.head].map(fieldLine).join("; "));
}

function settingItem(setting, fault, sent) {
    const faulty = fault && fault.id === setting.id;
    return el("li", { value: setting.id, class: faulty ? "at-fault" : null },
        faulty && el("strong", { class: "mark" }, say("page.atFault"), " "),
        sent && el("strong", { class: "mark" }, say("page.sentHere"), " "),
        settingInWords(setting), " ", el("span", { class: "where" }, say("page.byteRange", { from: setting.from, to: setting.to - 1 })));
}

function reasonLine(answer, judged, fault) {
    const key = judged ? "page.wouldBe" : "page.was";
    const place = fault && fault.id > 0 ? say("page.faultSetting", { id: fault.id }) : fault ? say("page.faultHead") : "";
    return el("p", { class: "reason" }, say(key, { number: answer.number, words: say(`number.${answer.number}.why`) }), place && ` ${place}`);
}

export function startMessage() {
    addView(() => {
        if (app.running) return;
        const message = chosenMessage();
        if (!message) return fill(byId("message"), el("p", {}, say("page.noMessage")));
        const parsed = parseMessage(message);
        const asked = chosenAnswer();
        const fault = faultOf(parsed, message, asked?.answer);
        const sent = app.sent && app.sent.message === app.chosen ? app.sent.entry : null;
        const marks = { part: partsOf(parsed), fault, sent };
        fill(byId("message"),
            el("p", {}, say("page.messageOf", { place: app.chosen + 1, count: app.series.length, bytes: message.length })),
            asked && asked.answer.number !== 0 && reasonLine(asked.answer, asked.judged, fault),
            el("div", { class: "beside" },
                el("div", { class: "bytes-box", tabindex: 0, role: "group", "aria-label": say("page.bytesOf") }, byteRows(message, marks)),
                el("div", {}, headWords(parsed),
                    el("ol", { class: "settings" }, parsed.settings.map((setting) => settingItem(setting, fault, sent && app.sent.setting.id === setting.id))),
                    parsed.rest && el("p", {}, say("page.rest", { from: parsed.rest.from, to: parsed.rest.to - 1 })))));
    });
}
