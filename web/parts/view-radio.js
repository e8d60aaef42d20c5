// The radio: the screen's tables as the row calls give them, what PTT on a row calls, and who an incoming number is.
import { say } from "./say.js";
import { sentBy } from "./series.js";
import { tablePlaces } from "./layouts.js";
import { app, addView, refresh, choose } from "./view-app.js";
import { el, byId, fill, button, hexAddress, announce, nextFrame } from "./view-dom.js";

const FRAME_SLICE = 8;
const CONTACT_TABLES = { 1: "line", 8: "line" };
let drawing = 0;
let drawn = null;
const onlookers = [];

export function tableName(table) {
    return say(`table.${tablePlaces[table]}`);
}

// What stands behind a row, asked for together with its name and kept with it.
function targetOf(set, table, index) {
    const entry = set.entry(table, index);
    if (entry.number !== 0) return null;
    if (CONTACT_TABLES[table]) return { table, idType: entry.idType, digits: set.entryDigits(table, index).digits, flags: entry };
    return { table, address: entry.address, flags: entry };
}

export function drawTable(set, { table, first, last }) {
    const rows = [];
    for (let index = first; index <= last; index++) {
        const row = set.row(table, index);
        if (row) rows.push({ table, index, text: row.text, units: row.units, inScratch: row.inScratch, target: targetOf(set, table, index) });
    }
    return rows;
}

export function targetText(target) {
    if (!target) return "";
    if (target.digits !== undefined) return `${say(target.idType === 1 ? "idType.1" : "idType.0")} ${target.digits}`;
    return hexAddress(target.address);
}

// The key by which an entry of a setting and this row are the same thing: a slot's index, a contact's address, a line's number.
export function keyOf({ table, index, target }) {
    if (table === 3) return { table, code: index };
    if ([2, 4, 5, 8].includes(table)) return { table, index };
    if (table === 1) return { table, idType: target.idType, digits: target.digits };
    return { table, address: target.address };
}

// Draws some rows in each frame, so that none is slow; another change ends it.
async function drawAll() {
    const turn = ++drawing;
    const { set, series } = app;
    const result = { position: series.position, store: null, tables: [] };
    let end = performance.now() + FRAME_SLICE;
    for (const table of set.tables()) {
        result.tables.push({ ...table, rows: drawTable(set, table) });
        if (performance.now() < end) continue;
        await nextFrame();
        if (turn !== drawing) return;
        end = performance.now() + FRAME_SLICE;
    }
    drawn = result;
    showRows();
}

export function drawnRows() {
    return drawn;
}

// Told each time rows are drawn: that is frames after a change where the machine is busy.
export function addOnlooker(look) {
    onlookers.push(look);
}

// The officer's key: what was drawn is called, whatever has come in since; how that row stands now is said beside it.
function pressTalk(row) {
    const sent = sentBy(app.series, drawn.position, keyOf(row));
    const now = app.set.row(row.table, row.index);
    const nowTarget = now && targetOf(app.set, row.table, row.index);
    app.pressed = { row, sent, now: now ? { text: now.text, target: nowTarget } : null, late: drawn.position !== app.series.position };
    app.sent = sent;
    announce(say("page.calls", { name: row.text, target: targetText(row.target) }));
    if (sent) return choose(sent.message);
    refresh();
}

function pressedLines() {
    const { row, sent, now, late } = app.pressed;
    const moved = late && (!now || now.text !== row.text || targetText(now.target) !== targetText(row.target));
    const between = !moved ? "page.rowSame" : now ? "page.rowMoved" : "page.rowGone";
    return el("div", { class: "pressed", role: "status" },
        el("p", {}, el("strong", {}, say("page.calls", { name: row.text, target: targetText(row.target) }))),
        sent && el("p", {}, say("page.sentBy", { message: sent.message + 1, setting: sent.setting.id, from: sent.entry.from, to: sent.entry.to - 1 })),
        late && el("p", {}, say(between, { name: now?.text ?? "", target: targetText(now?.target) })));
}

function rowItem(row) {
    const call = row.target && el("button", {
        type: "button", "data-key": `ptt-${row.table}-${row.index}`, class: "ptt",
        "aria-label": say("page.pttOn", { name: row.text }), onclick: () => pressTalk(row),
    }, say("page.ptt"));
    return el("li", {}, el("span", { class: "place" }, `${row.index}`), el("span", { class: "name", lang: "zh" }, row.text || say("page.emptyText")),
        el("span", { class: "target" }, targetText(row.target)), call);
}

function tableBox({ table, first, last, rows }) {
    return el("section", { class: "screen", "data-table": table, "aria-label": tableName(table) },
        el("h4", {}, tableName(table), " ", el("span", { class: "count" }, say("page.rowCount", { count: rows.length, places: last - first + 1 }))),
        rows.length === 0 ? el("p", { class: "none" }, say("page.noRows")) : el("ul", {}, rows.map(rowItem)));
}

function room() {
    const counts = app.set.counts();
    return el("p", { id: "room" }, say("page.room", {
        lines: counts.lines, allLines: app.set.lines, freeLines: counts.freeLines,
        channels: counts.channels, allChannels: app.set.channels, freeChannels: counts.freeChannels,
    }));
}

function showRows() {
    const full = drawn.tables.filter((each) => each.rows.length > 0);
    const empty = drawn.tables.filter((each) => each.rows.length === 0).map((each) => tableName(each.table));
    byId("rows").dataset.position = drawn.position;
    fill(byId("rows"),
        drawn.position !== app.series.position && el("p", { class: "held" }, say("page.heldAt", { position: drawn.position })),
        full.length === 0 && el("p", { class: "none" }, say("page.noRowsAtAll")),
        full.map(tableBox),
        empty.length > 0 && full.length > 0 && el("p", { class: "none" }, say("page.emptyTables", { tables: empty.join(", ") })));
    for (const look of onlookers) look();
}

// Who is calling: the row of the line with that number, and the name that the screen shows there.
function lookUp() {
    const digits = byId("caller").value.trim();
    const idType = Number(byId("caller-type").value);
    const found = app.set.lineOf(idType, digits);
    const row = found.number === 0 && found.found ? app.set.row(1, found.row) : null;
    const text = row ? say("page.callerIs", { row: found.row, name: row.text }) :
        say(found.number === 0 ? "page.callerNone" : "page.callerBad", { digits, number: found.number });
    byId("caller-said").textContent = text;
    announce(text);
}

function onOff(flag) {
    return say(flag ? "page.on" : "page.off");
}

function settingsLines() {
    const channels = [];
    for (let each = 0; each < app.set.counts().channels; each++) channels.push(app.set.channel(each).channel);
    const key = app.set.emergencyKey();
    const home = app.set.homeNumbers();
    const system = app.set.systemCode();
    const to = key.current ? say("page.keyCurrent") : `${say(key.group ? "page.keyGroup" : "page.keyIndividual")} ${hexAddress(key.address)}`;
    return el("ul", { class: "plain" },
        el("li", {}, say("page.channelsAre", { channels: channels.length ? channels.join(", ") : "–" })),
        el("li", {}, say("page.keyIs", { to, voice: onOff(key.voice), status: onOff(key.status), siren: onOff(key.siren) })),
        el("li", {}, say("page.homeIs", { nzi: home.nzi, np: home.np })),
        el("li", {}, say("page.systemIs", { lai: system.lai.toString(16).toUpperCase(), la: system.la, roaming: system.roaming, par: Number(system.par) })));
}

export function isHeld() {
    return byId("hold").checked;
}

export function startRadio() {
    byId("hold").addEventListener("change", () => refresh());
    byId("caller-form").addEventListener("submit", (event) => {
        event.preventDefault();
        lookUp();
    });
    addView(() => {
        if (app.running) return;
        fill(byId("pressed"), app.pressed && pressedLines());
        fill(byId("numbers"), room(), settingsLines());
        if (isHeld() && drawn) showRows();
        else drawAll();
    });
}
