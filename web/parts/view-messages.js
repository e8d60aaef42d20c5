// Where messages come from, the list of them, and steps through it.
import { say, getLanguage } from "./say.js";
import { parseRecords, writeRecords, parseHex, toFragment } from "./records.js";
import { parseMessage } from "./wire.js";
import { app, addView, refresh, openSeries, choose, takeNext, goTo, addNext, runAll, endRun, useSet, drawProgress } from "./view-app.js";
import { el, byId, fill, button, choice, announce } from "./view-dom.js";

const PAGE_ROWS = 12;

function fault(text) {
    app.fault = text;
    announce(text);
    refresh();
}

async function openFile(event) {
    const [file] = event.target.files;
    event.target.value = "";
    if (!file) return;
    openBytes(new Uint8Array(await file.arrayBuffer()), file.name);
}

// A record file, as the program take reads it; the records before a cut one are opened, and that it is cut is said.
export function openBytes(bytes, name) {
    const { records, cut } = parseRecords(bytes);
    if (records.length === 0) return fault(say(bytes.length === 0 ? "page.fileEmpty" : "page.fileNone", { name }));
    openSeries(records, null, cut ? say("page.fileCut", { name, count: records.length }) : null);
}

function addHex() {
    const area = byId("hex");
    const read = parseHex(area.value);
    if (read.fault) return fault(say(read.fault, { ...read, at: read.at + 1 }));
    for (const message of [...read.messages].reverse()) addNext(message);
    area.value = "";
}

function openExample(examples, key) {
    const example = examples.find((each) => each.key === key);
    if (!example) return;
    if (app.kind !== example.setKind) useSet(example.setKind);
    openSeries(example.messages.map((message) => ({ kind: 0, message })), { key: `example.${example.key}.story`, steps: example.steps });
}

export function save() {
    const url = URL.createObjectURL(new Blob([writeRecords(app.series.records)], { type: "application/octet-stream" }));
    el("a", { href: url, download: "messages.rec" }).click();
    setTimeout(() => URL.revokeObjectURL(url), 10000);
    announce(say("page.saved", { count: app.series.length }));
}

// The link is in the address line, and in the clipboard where the browser lets the page write there.
async function link() {
    const messages = app.series.records.map((record) => record.message);
    const made = toFragment({ messages, position: app.series.position, kind: app.kind, language: getLanguage() });
    if (made.fault) return fault(say(made.fault, made));
    history.replaceState(null, "", made.fragment);
    try {
        await navigator.clipboard.writeText(location.href);
        announce(say("page.linkCopied"));
    } catch {
        announce(say("page.linkShown"));
    }
}

function sources(examples) {
    return [
        el("div", { class: "row" },
            el("label", { class: "file" }, el("span", {}, say("page.openFile")),
                el("input", { type: "file", id: "file", "data-key": "page.openFile", onchange: openFile })),
            choice("page.example", [["", say("page.chooseExample")], ...examples.map((each) => [each.key, say(`example.${each.key}.title`)])], "",
                (key) => openExample(examples, key)),
            choice("page.kind", [["handheld", say("set.handheld")], ["vehicle", say("set.vehicle")]], app.kind,
                (kind) => useSet(kind, app.series.records))),
        el("details", {}, el("summary", {}, say("page.paste")),
            el("label", {}, el("span", {}, say("page.hex")), el("textarea", { id: "hex", rows: 3, spellcheck: "false", autocomplete: "off" })),
            button("page.addHex", addHex)),
    ];
}

function steps() {
    const { position, length } = app.series;
    const running = app.running !== null;
    return [
        button("page.first", () => goTo(0), { disabled: position === 0 && !running }),
        button("page.back", () => goTo(position - 1), { disabled: position === 0 || running }),
        button("page.next", takeNext, { disabled: position === length || running, class: "main" }),
        running ? button("page.stop", () => endRun()) : button("page.run", runAll, { disabled: position === length }),
        button("page.save", save, { disabled: length === 0 }),
        button("page.link", link, { disabled: length === 0 }),
    ];
}

// What a message is, in a few words: its kind, or its settings.
function titleOf(message) {
    const parsed = parseMessage(message);
    if (parsed.kind !== "request" || parsed.settings.length === 0) return say(`kind.${parsed.kind}`);
    const names = [...new Set(parsed.settings.map((setting) => say(setting.name)))];
    return names.slice(0, 3).join(", ") + (names.length > 3 ? " …" : "");
}

function stateOf(index) {
    if (index >= app.series.position) return index === app.series.position ? say("page.isNext") : say("page.waits");
    const { number, failed } = app.series.answers[index];
    if (number === 0) return say("page.isTaken");
    return failed ? say("page.isRefusedAt", { number, failed }) : say("page.isRefused", { number });
}

function listItem(index) {
    const { message } = app.series.records[index];
    const here = index === app.chosen;
    return el("li", {}, el("button", { type: "button", "data-key": `message-${index}`, "aria-current": here ? "true" : null, onclick: () => choose(index) },
        el("span", { class: "place" }, `${index + 1}`), el("span", { class: "what" }, titleOf(message)),
        el("span", { class: "bytes" }, say("page.bytes", { count: message.length })), el("span", { class: "state" }, stateOf(index))));
}

function list() {
    const { length } = app.series;
    if (length === 0) return [el("p", {}, say("page.noMessages"))];
    const first = Math.floor(app.chosen / PAGE_ROWS) * PAGE_ROWS;
    const end = Math.min(length, first + PAGE_ROWS);
    const rows = Array.from({ length: end - first }, (_, each) => listItem(first + each));
    return [
        el("ol", { class: "messages", start: first + 1 }, rows),
        length > PAGE_ROWS && el("div", { class: "row" },
            button("page.earlier", () => choose(first - 1), { disabled: first === 0 }),
            el("span", {}, say("page.range", { first: first + 1, last: end, count: length })),
            button("page.later", () => choose(end), { disabled: end === length })),
    ];
}

// An example's story, and what a trainer says once so many messages are taken in.
function storyLines() {
    if (!app.story) return [];
    const notes = app.story.steps.filter((step) => step.at === app.series.position);
    return [el("p", {}, say(app.story.key)), ...notes.map((step) => el("p", { class: "note" }, "➤ ", say(step.note)))];
}

export function startMessages(examples) {
    let language = null;
    addView(() => {
        // The inputs keep what was typed into them, so they are drawn again only for another language or kind of set.
        const now = document.documentElement.lang + app.kind;
        if (now !== language) fill(byId("sources"), ...sources(examples));
        language = now;
        fill(byId("fault"), app.fault && el("p", { class: "fault" }, app.fault));
        fill(byId("story"), ...storyLines());
        fill(byId("steps"), ...steps());
        drawProgress();
        if (!app.running) fill(byId("list"), ...list());
    });
}
