// The plain engine beside the hand-held, in a worker: it is sent what the hand-held took, and the page says whether both agree.
import { say } from "./say.js";
import { DeskClient } from "./worker.js";
import { app, addFollower, addView } from "./view-app.js";
import { addOnlooker, drawnRows } from "./view-radio.js";
import { el, byId, fill } from "./view-dom.js";

const AHEAD = 256;
const desk = { client: null, records: null, sent: 0, took: 0, full: null, differs: null, rows: null };
export const deskState = desk;

function isSameBytes(one, other) {
    return one.length === other.length && one.every((byte, at) => byte === other[at]);
}

function isSameAnswer(index, took) {
    const answer = app.series.answers[index];
    return answer !== undefined && answer.packed.toString() === took.packed && isSameBytes(answer.reply, took.reply);
}

function onTook(took) {
    if (took.full) desk.full = took.position;
    else {
        desk.took = took.position;
        if (!isSameAnswer(took.position - 1, took)) desk.differs ??= { message: took.position };
    }
    sendMore();
    askRows();
    if (!app.running) drawDesk();
}

// The rows that the screen has drawn are asked of the plain engine too, once it has come as far.
function askRows() {
    const drawn = drawnRows();
    if (!drawn || app.kind !== "handheld" || desk.full !== null || app.running) return;
    if (drawn.position !== app.series.position || desk.took !== drawn.position) return;
    if (desk.rows && desk.rows.drawn === drawn) return;
    const rows = drawn.tables.flatMap((table) => table.rows);
    desk.rows = { drawn, wanted: new Map(rows.map((row) => [`${row.table}-${row.index}`, row])), same: 0, all: rows.length };
    if (rows.length > 0) desk.client.rows(drawn.position, rows.map((row) => [row.table, row.index]));
    drawDesk();
}

function onRows(answer) {
    if (!desk.rows || drawnRows() !== desk.rows.drawn) return;
    for (const row of answer.rows) {
        const wanted = desk.rows.wanted.get(`${row.table}-${row.index}`);
        if (row.units && wanted && isSameBytes(row.units, wanted.units)) desk.rows.same += 1;
        else desk.differs ??= { row: row.index };
    }
    drawDesk();
}

function restart() {
    desk.client.send(0, []);
    Object.assign(desk, { records: app.series.records, sent: 0, took: 0, full: null, differs: null, rows: null });
}

// Sends what the hand-held took and the plain engine has not; goes back where the series did.
function follow() {
    if (app.kind !== "handheld" || !desk.client) return;
    if (desk.records !== app.series.records) restart();
    const { position } = app.series;
    if (position < desk.sent) {
        const took = Math.min(desk.took, position);
        desk.client.send(took, []);
        Object.assign(desk, { sent: took, took, full: desk.full !== null && desk.full > position ? null : desk.full, rows: null });
    }
    sendMore();
}

// Some messages ahead of what it has taken, so that a long series is not handed over at once.
function sendMore() {
    const to = Math.min(app.series.position, desk.took + AHEAD);
    if (desk.full !== null || to <= desk.sent || (desk.sent - desk.took > AHEAD / 2)) return;
    desk.client.send(desk.sent, app.series.records.slice(desk.sent, to).map((record) => record.message));
    desk.sent = to;
}

function deskText() {
    if (app.kind !== "handheld") return say("page.deskOnlyHandheld");
    if (desk.differs) return desk.differs.row !== undefined ? say("page.deskRowDiffers", desk.differs) : say("page.deskDiffers", desk.differs);
    if (desk.full !== null) return say("page.deskFull", { message: desk.full });
    if (desk.took < app.series.position) return say("page.deskBehind", { took: desk.took, sent: app.series.position });
    return say("page.deskSame", { took: desk.took, rows: desk.rows?.same ?? 0, all: desk.rows?.all ?? 0 });
}

function drawDesk() {
    const text = deskText();
    const state = desk.differs ? "differs" : desk.full !== null ? "full" : "same";
    const signs = { differs: "✗ ", full: "■ ", same: "✓ " };
    fill(byId("desk"), el("p", { class: `desk ${state}`, "data-state": state, "data-took": desk.took }, signs[state], text));
}

export function startDesk(worker, moduleBytes) {
    desk.client = new DeskClient(worker);
    desk.client.onTook = onTook;
    desk.client.onRows = onRows;
    desk.client.load(moduleBytes);
    addFollower(follow);
    addView(drawDesk);
    addOnlooker(askRows);
}
