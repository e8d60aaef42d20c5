// web/tests/page_shift.mjs: the shift's record file gives, after each message, what the program `shift` prints of it; examples, damaged files, many messages.
import { readFileSync } from "node:fs";
import { equal, holds, test } from "./harness.mjs";
import { choose, drawn, inStep, keyed, openExample, openFile, openPage, position, records, rowsShown, runAll, said, takeNext, textOf } from "./page_steps.mjs";

const stored = (name) => readFileSync(new URL(`../../crates/${name}`, import.meta.url));

// What the program prints after each message: number, reply, rows by table, room and caller.
function shiftPrints(text) {
    return text.split("\n\n").filter((part) => part.trim() !== "").map((part) => {
        const [head, ...lines] = part.trim().split("\n");
        const said = Object.fromEntries(lines.map((line) => [line.trim().slice(0, 21).trim(), line.trim().slice(21).trim()]));
        const { reply = "", room, "call from 2346": caller, ...rows } = said;
        delete rows["no rows"];
        return { number: Number(/: (\d+),/.exec(head)?.[1] ?? 0), reply, room, caller, rows };
    });
}

// The same of the page.
async function pageShows(page) {
    const rows = await rowsShown(page);
    await page.evaluate(() => {
        document.querySelector("#caller").value = "2346";
        document.querySelector("#caller-form").requestSubmit();
    });
    const caller = /Row (\d+): (.*)/.exec(await textOf(page, "#caller-said"));
    const counts = await page.evaluate("app.set.counts()");
    const answer = await page.evaluate(() => {
        const last = app.series.answers[app.series.position - 1];
        return last ? { number: last.number, reply: hexBytes(last.reply) } : { number: 0, reply: "" };
    });
    return {
        number: answer.number, reply: answer.reply, room: `lines ${counts.lines} of 32, channels ${counts.channels} of 64`,
        caller: caller ? `${caller[1]} ${caller[2]}` : "no row", rows: Object.fromEntries(Object.entries(rows).map(([name, list]) => [name, list.join(", ")])),
    };
}

async function eachMessage(page, wanted) {
    for (let each = 0; each < wanted.length; each++) {
        if (each > 0) await takeNext(page);
        equal(`after message ${each}`, await pageShows(page), wanted[each]);
    }
}

const examples = {
    shift: [0, 0, 4, 0, 0],
    full: [0, 2],
    ninth: [4, 0],
};

// Ten thousand messages: good ones that grow and shrink tables, refused and random ones, and a dozen long ones that fill the plain engine's area.
function manyMessages(count) {
    const quick = (units) => {
        const texts = Array.from({ length: 63 }, (_, each) => [each, ...Array(units).fill(0x61 + each % 26), 0]).flat();
        return [2, 2, 0, 0, 8, 4, 8, 1, 0xcc, (texts.length + 3) >> 8, (texts.length + 3) & 255, 0x40 + 63, ...texts];
    };
    const group = (each) => [2, 2, 0, 0, 8, 4, 8, 1, 0xd1, 0, 9, 0x60, each % 16, 0x10, 0, 1 + each % 200, 0x41 + each % 26, 0];
    const line = (each) => [2, 2, 0, 0, 8, 4, 8, 1, 0xca, 0, 7, each % 3 ? 0x42 : 0x82, 1, (each % 9 + 1) * 16 + each % 10, 0xff, 0];
    const bad = (each) => [2, 2, 0, 0, 8, 4, 8, 1, 0xe0 + each % 16, 0, 3, 1];
    return Array.from({ length: count }, (_, each) => (each % 8 === 7 && each < 160 ? quick(23) : [group, line, bad, group][each % 4](each)));
}

function shiftTests(browser, url) {
    test("the shift's record file gives the rows of the program shift after each message", async () => {
        const page = await openPage(browser, url);
        await openFile(page, stored("shift/stdin"), "shift.rec");
        const wanted = shiftPrints(stored("shift/stdout").toString());
        holds("enough of the shift", wanted.length >= 6);
        await eachMessage(page, wanted);
        // Back and forth: the same at each place.
        for (const each of [3, 1, 0, wanted.length - 1]) {
            await page.evaluate((to) => goTo(to), each);
            equal(`again after message ${each}`, await pageShows(page), wanted[each]);
        }
        equal("errors", page.errors, []);
        await page.close();
    });
    test("a page with a wrong row would be seen", async () => {
        const page = await openPage(browser, url);
        await openFile(page, stored("shift/stdin"), "shift.rec");
        await takeNext(page);
        const wanted = await rowsShown(page);
        await page.evaluate(() => {
            document.querySelector("#rows .name").textContent = "x";
        });
        holds("the rows differ", JSON.stringify(await rowsShown(page)) !== JSON.stringify(wanted));
        await page.close();
    });
}

function exampleTests(browser, url) {
    test("every example comes to what its story says", async () => {
        const page = await openPage(browser, url);
        const keys = await page.evaluate((where) => [...document.querySelectorAll(`${where} option`)].map((each) => each.value).filter(Boolean), keyed("page.example"));
        holds("five examples", keys.length >= 5);
        for (const key of keys) {
            await openExample(page, key);
            holds(`${key} has a story`, (await textOf(page, "#story")).length > 60);
            await runAll(page);
            const numbers = await page.evaluate("app.series.answers.map((answer) => answer.number)");
            if (examples[key]) equal(`the numbers of ${key}`, numbers.slice(0, examples[key].length), examples[key]);
            await drawn(page);
        }
        equal("errors", page.errors, []);
        await page.close();
    });
    test("a fault in the ninth setting is marked in the bytes and in the words, with its reason", async () => {
        const page = await openPage(browser, url);
        await openExample(page, "ninth");
        await page.click(keyed("page.look"));
        holds("judging changes nothing", await position(page) === 0);
        const marked = await page.evaluate(() => ({
            settings: [...document.querySelectorAll("#message .settings li.at-fault")].map((each) => each.value),
            bytes: [...document.querySelectorAll("#message .byte.at-fault")].length,
            wanted: parseMessage(chosenMessage()).settings.find((each) => each.id === 9),
        }));
        equal("the setting", marked.settings, [9]);
        equal("its bytes", marked.bytes, marked.wanted.to - marked.wanted.from);
        holds("the reason", (await textOf(page, "#message .reason")).includes("Setting 9"));
        await page.close();
    });
    test("a rename between drawing and PTT: what was drawn is called", async () => {
        const page = await openPage(browser, url);
        await openExample(page, "rename");
        await takeNext(page);
        await drawn(page);
        await page.click("#hold");
        const before = await rowsBefore(page);
        await takeNext(page);
        await page.waitFor(() => document.querySelector("#rows .held") !== null);
        equal("the held screen", await rowsBefore(page), before);
        const [key, target] = await page.evaluate(() => {
            const row = [...document.querySelectorAll("#rows li")].find((each) => each.querySelector(".place").textContent === "1");
            return [row.querySelector(".ptt").dataset.key, row.querySelector(".target").textContent];
        });
        await page.click(keyed(key));
        const told = await textOf(page, "#pressed");
        holds("the drawn address is called", told.includes(`PTT calls ${target}`));
        holds("the row as it is now is said", told.includes("A message came in between"));
        holds("by which setting", /message 1, setting \d+/.test(told));
        await page.close();
    });
}

const rowsBefore = (page) => page.evaluate(() => [...document.querySelectorAll("#rows li")].map((each) => each.textContent));

// Runs all messages from the start: the tasks that took over 100 ms, which a user sees as a stop.
async function slowTasks(page) {
    await page.evaluate(() => goTo(0));
    const started = Date.now();
    const frames = await page.frames(() => runAll(page, 120000));
    const seconds = (Date.now() - started) / 1000;
    const tasks = frames.tasks.map((each) => each.toFixed(0)).join(" ") || "none";
    console.log(`        10,000 messages in ${seconds.toFixed(1)} s, ${frames.frames} frames, the longest ${frames.longest.toFixed(0)} ms, tasks over 50 ms: ${tasks}`);
    return frames.tasks.filter((each) => each > 100);
}

function fileTests(browser, url) {
    test("damaged files are said, and nothing breaks", async () => {
        const page = await openPage(browser, url);
        const shift = stored("shift/stdin");
        for (let cut = 0; cut < shift.length; cut += 37) {
            await openFile(page, shift.subarray(0, cut), `cut-${cut}.rec`);
            holds(`cut at ${cut} is said`, cut === 284 || /empty|no whole record|ends within|none taken/.test(await said(page)));
        }
        for (let each = 0; each < 40; each++) {
            const bytes = Buffer.from(shift);
            for (let change = 0; change < 6; change++) bytes[(each * 131 + change * 77) % bytes.length] ^= 1 << (each + change) % 8;
            await openFile(page, bytes, `changed-${each}.rec`);
            if (await page.evaluate("app.series.length") > 0) await runAll(page);
            await drawn(page);
        }
        await openFile(page, Buffer.alloc(3000, 255), "ff.rec");
        await openFile(page, records([[], [2], Buffer.alloc(60000, 2)]), "sizes.rec");
        await runAll(page);
        equal("too short and too long", await page.evaluate("app.series.answers.map((answer) => answer.number)"), [12, 12, 12]);
        equal("errors", page.errors, []);
        await page.close();
    });
    test("ten thousand messages without a slow frame, the plain engine beside them until its area is full", async () => {
        const page = await openPage(browser, url);
        await openFile(page, records(manyMessages(10000)), "many.rec");
        // Other work on the machine can make a frame late: the best of ten runs counts.
        let slow = null;
        for (let turn = 0; turn < 10 && (slow === null || slow.length > 0); turn++) slow = await slowTasks(page);
        equal("tasks over 100 ms", slow, []);
        await page.waitFor(() => deskState.full !== null || deskState.differs !== null, 120000);
        equal("the plain engine differs", await page.evaluate("deskState.differs"), null);
        holds("its area is full", (await textOf(page, "#desk")).includes("area is full"));
        equal("errors", page.errors, []);
        await page.close();
    });
    test("a run of many messages shows how far it is, and can be stopped", async () => {
        const page = await openPage(browser, url);
        await openFile(page, records(manyMessages(10000)), "many.rec");
        await page.click(keyed("page.run"));
        await page.waitFor(() => Number(document.querySelector("#progress").value) > 0);
        await page.click(keyed("page.stop"));
        await page.waitFor(() => !app.running);
        const at = await position(page);
        holds(`stopped in between, at ${at}`, at > 0 && at < 10000);
        holds("it is said", (await said(page)).startsWith("Stopped"));
        await page.click(keyed("page.back"));
        equal("a step back", await position(page), at - 1);
        await page.close();
    });
    const agreed = (at) => deskState.took === at && deskState.rows && deskState.rows.same === deskState.rows.all && deskState.rows.all > 0;
    test("the plain engine agrees on the shift, answer by answer and row by row", async () => {
        const page = await openPage(browser, url);
        await openExample(page, "shift");
        await runAll(page);
        await inStep(page);
        await page.waitFor(agreed, 60000, await position(page));
        holds("it is said", (await textOf(page, "#desk")).includes("Both agree"));
        await page.evaluate(() => goTo(2));
        await page.waitFor(agreed, 60000, 2);
        await choose(page, keyed("page.kind"), "vehicle");
        holds("no plain engine of a vehicle", (await textOf(page, "#desk")).includes("hand-held"));
        await page.close();
    });
    test("it agrees too where rows are drawn frames after a change, as on a busy machine", async () => {
        const page = await openPage(browser, url);
        await openExample(page, "shift");
        await page.send("Emulation.setCPUThrottlingRate", { rate: 20 });
        for (const at of [5, 2, 3]) {
            await page.evaluate((to) => goTo(to), at);
            await page.waitFor(agreed, 60000, at);
        }
        await page.close();
    });
}

export function allShiftTests(browser, url) {
    shiftTests(browser, url);
    exampleTests(browser, url);
    fileTests(browser, url);
}
