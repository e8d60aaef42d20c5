// The store as a picture: each region in its colour and pattern, changed bytes marked; the same in words and as bytes below it.
import { say, hasWords } from "./say.js";
import { regionsOf, changedBytes } from "./regions.js";
import { app, addView, refresh } from "./view-app.js";
import { el, byId, fill, hexByte } from "./view-dom.js";

const COLUMNS = 256;
const CELL = 4;
const HUES = [210, 30, 140, 280, 0, 180, 60, 320, 100, 240, 20, 160, 300, 80, 200, 340];
const SHOWN_ROWS = 24;
const SPARE_POINT = 0xFFEEEEEE;
let painted = null;
const REGION_ROW_BYTES = 32;

function regionName(key) {
    return say(hasWords(`table.${key}`) ? `table.${key}` : `region.${key}`);
}

// A region's pattern, by its number: which of the picture's cells are a shade darker.
function isDark(number, column, row) {
    return [false, (column + row) % 2 === 0, row % 2 === 0, column % 2 === 0][number % 4];
}

// Hue, saturation and lightness of a cell: what is 0 is pale, and the pattern a shade darker.
function cellShade(number, isZero, dark) {
    return [HUES[number % HUES.length], isZero ? 45 : 65, isZero ? (dark ? 88 : 93) : (dark ? 42 : 50)];
}

function cellColour(number, isZero, dark) {
    const [hue, saturation, light] = cellShade(number, isZero, dark);
    return `hsl(${hue} ${saturation}% ${light}%)`;
}

// The same as a point of a picture: red in the lowest byte, then green, blue, and whole.
function cellPoint(number, isZero, dark) {
    const [hue, saturation, light] = cellShade(number, isZero, dark);
    const reach = saturation / 100 * Math.min(light, 100 - light) / 100;
    const part = (turn) => Math.round(255 * (light / 100 - reach * Math.max(-1, Math.min((turn + hue / 30) % 12 - 3, 9 - (turn + hue / 30) % 12, 1))));
    return (0xFF000000 | part(4) << 16 | part(8) << 8 | part(0)) >>> 0;
}

// A square of points, so many from the cell's edge.
function putSquare(points, at, colour, edge) {
    const first = (Math.floor(at / COLUMNS) * CELL + edge) * COLUMNS * CELL + at % COLUMNS * CELL + edge;
    for (let row = 0; row < CELL - 2 * edge; row++) points.fill(colour, first + row * COLUMNS * CELL, first + row * COLUMNS * CELL + CELL - 2 * edge);
}

// A changed byte is a black cell with a white dot.
function markCell(points, at) {
    putSquare(points, at, 0xFF000000, 0);
    putSquare(points, at, 0xFFFFFFFF, 1);
}

function paintRegion(points, store, region, number) {
    const colours = [false, true].map((isZero) => [false, true].map((dark) => (region.key === "spare" ? SPARE_POINT : cellPoint(number, isZero, dark))));
    for (let at = region.from; at < region.to; at++) {
        const dark = isDark(number, at % COLUMNS, Math.floor(at / COLUMNS));
        putSquare(points, at, colours[store[at] === 0 ? 1 : 0][dark ? 1 : 0], 0);
    }
}

// Only what has changed is painted again while the store is of the same kind.
function paint(canvas, store, changed) {
    const size = Math.ceil(store.length / COLUMNS) * CELL;
    if (!painted || painted.picture.height !== size) {
        [canvas.width, canvas.height] = [COLUMNS * CELL, size];
        painted = { picture: new ImageData(COLUMNS * CELL, size), store: null, marked: [] };
    }
    const { picture } = painted;
    const points = new Uint32Array(picture.data.buffer);
    regionsOf(app.kind).forEach((region, number) => {
        if (!painted.store || isOther(region, store)) paintRegion(points, store, region, number);
    });
    for (const [from, to] of changed) for (let at = from; at < to; at++) markCell(points, at);
    painted = { picture, store, marked: changed };
    canvas.getContext("2d").putImageData(picture, 0, 0);
}

// Whether a region has other bytes, or marks of the message before, than when it was painted.
function isOther(region, store) {
    if (painted.marked.some(([from, to]) => from < region.to && to > region.from)) return true;
    for (let at = region.from; at < region.to; at++) if (store[at] !== painted.store[at]) return true;
    return false;
}

function changedIn(region, changed) {
    return changed.reduce((sum, [from, to]) => sum + Math.max(0, Math.min(to, region.to) - Math.max(from, region.from)), 0);
}

function usedIn(region, store) {
    let used = 0;
    for (let at = region.from; at < region.to; at++) if (store[at] !== 0) used += 1;
    return used;
}

function swatch(number, key) {
    const colour = key === "spare" ? "#eee" : cellColour(number, false, true);
    return el("span", { class: "swatch", style: `background:${colour}`, "aria-hidden": "true" });
}

function regionRow(region, number, store, changed) {
    const many = changedIn(region, changed);
    return el("tr", {},
        el("th", { scope: "row" }, swatch(number, region.key), el("button", {
            type: "button", class: "link", "data-key": `region-${region.key}`, "aria-expanded": app.region === region.key ? "true" : "false",
            onclick: () => {
                app.region = app.region === region.key ? null : region.key;
                refresh();
            },
        }, regionName(region.key))),
        el("td", {}, `${region.from}–${region.to - 1}`), el("td", {}, `${usedIn(region, store)}`),
        el("td", {}, many ? el("strong", {}, `● ${many}`) : "0"));
}

function regionTable(regions, store, changed) {
    return el("table", {}, el("caption", {}, say("page.regions")),
        el("thead", {}, el("tr", {}, ["page.region", "page.places", "page.notZero", "page.changed"].map((key) => el("th", { scope: "col" }, say(key))))),
        el("tbody", {}, regions.map((region, number) => regionRow(region, number, store, changed))));
}

// The bytes of one region; changed ones in brackets.
function regionBytes(region, store, changed) {
    const isChanged = (at) => changed.some(([from, to]) => at >= from && at < to);
    const rows = [];
    for (let from = region.from; from < region.to && rows.length < SHOWN_ROWS; from += REGION_ROW_BYTES) {
        const cells = [];
        for (let at = from; at < Math.min(from + REGION_ROW_BYTES, region.to); at++) {
            cells.push(el("span", { class: isChanged(at) ? "byte changed" : "byte" }, hexByte(store[at])));
        }
        rows.push(el("div", { class: "byte-row" }, el("span", { class: "offset" }, `${from}`), cells));
    }
    const left = region.to - region.from - rows.length * REGION_ROW_BYTES;
    return el("div", { class: "bytes-box", tabindex: 0, role: "group", "aria-label": regionName(region.key) }, rows,
        left > 0 && el("p", {}, say("page.moreBytes", { count: left })));
}

export function startStore() {
    addView(() => {
        if (app.running) return;
        const store = app.set.store();
        const regions = regionsOf(app.kind);
        const changed = changedBytes(app.series.before, store);
        const many = changed.reduce((sum, [from, to]) => sum + to - from, 0);
        const text = say("page.pictureOf", { bytes: store.length, changed: many, runs: changed.length });
        const canvas = byId("picture");
        canvas.setAttribute("aria-label", text);
        paint(canvas, store, changed);
        const open = regions.find((region) => region.key === app.region);
        fill(byId("store"), el("p", {}, text), regionTable(regions, store, changed), open && regionBytes(open, store, changed));
    });
}
