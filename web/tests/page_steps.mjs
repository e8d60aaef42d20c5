// web/tests/page_steps.mjs: what the tests of the page do with it, by the mouse and the keys, and what they read off it.
import { mkdtempSync, rmSync, writeFileSync } from "node:fs";
import { tmpdir } from "node:os";
import { join } from "node:path";

export const keyed = (key) => `[data-key="${key}"]`;

// Opens it anew, in a language.
export async function openPage(browser, url, language = "en") {
    const page = await browser.newPage();
    await page.open(url);
    await page.waitFor(() => document.body.dataset.ready === "yes").catch((error) => {
        throw new Error(`${error.message}: ${page.errors.join("; ")}`);
    });
    await choose(page, "#language", language);
    return page;
}

// As a user's choice in a list: the element gets it, and is told so.
export async function choose(page, selector, value) {
    await page.evaluate((where, what) => {
        const list = document.querySelector(where);
        list.value = what;
        list.dispatchEvent(new Event("change", { bubbles: true }));
    }, selector, value);
}

// A record file that a user opens; name and bytes.
export async function openFile(page, bytes, name = "messages.rec") {
    const folder = mkdtempSync(join(tmpdir(), "records-"));
    const path = join(folder, name);
    writeFileSync(path, bytes);
    await page.evaluate(() => {
        document.querySelector("#said").textContent = "";
    });
    await page.setFile("#file", path);
    await page.waitFor(() => document.querySelector("#said").textContent !== "");
    rmSync(folder, { recursive: true });
}

export function records(messages) {
    return Buffer.concat(messages.flatMap((message) => [Buffer.from([message.length & 255, message.length >> 8, 0, 0]), Buffer.from(message)]));
}

export const position = (page) => page.evaluate("app.series.position");

// The screen is drawn some rows in each frame: until it is drawn for the messages that were taken.
export async function drawn(page) {
    await page.waitFor(() => isHeld() || (Number(document.querySelector("#rows").dataset.position) === app.series.position && !app.running));
}

// The rows as a user reads them: table by table, {lines: ["0 name (target)", ..], ..}.
export async function rowsShown(page) {
    await drawn(page);
    return page.evaluate(() => {
        const text = (row, part) => row.querySelector(part)?.textContent ?? "";
        const tables = [...document.querySelectorAll("#rows .screen")];
        return Object.fromEntries(tables.map((table) => [table.getAttribute("aria-label"), [...table.querySelectorAll("li")].map((row) => {
            const target = text(row, ".target");
            return `${text(row, ".place")} ${text(row, ".name")}${target ? ` (${target})` : ""}`;
        })]));
    });
}

export const textOf = (page, selector) => page.evaluate((where) => document.querySelector(where)?.innerText ?? "", selector);

export const said = (page) => textOf(page, "#said");

// What stands below the rows moves while they are drawn, so the next click waits for them.
export async function takeNext(page) {
    await page.click(keyed("page.next"));
    await drawn(page);
}

export async function runAll(page, milliseconds = 20000) {
    await page.click(keyed("page.run"));
    await page.waitFor(() => !app.running && app.series.position === app.series.length, milliseconds);
    await drawn(page);
}

export async function openExample(page, key) {
    await choose(page, keyed("page.example"), key);
}

// Until the plain engine has come as far as the set, or its area is full.
export async function inStep(page, milliseconds = 20000) {
    await page.waitFor(() => deskState.full !== null || deskState.differs !== null || deskState.took === app.series.position, milliseconds);
}
