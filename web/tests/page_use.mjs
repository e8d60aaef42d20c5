// web/tests/page_use.mjs: the page by keys alone, on a small screen, in two languages; links and files; two sets, reports and updates; nothing is fetched.
import { equal, holds, test } from "./harness.mjs";
import { choose, drawn, keyed, openExample, openFile, openPage, position, records, rowsShown, runAll, said, takeNext, textOf } from "./page_steps.mjs";

const LINE = [2, 2, 0, 0, 8, 4, 8, 1, 0xca, 0, 7, 0x42, 1, 0x5f, 0x41, 0];

function languageTests(browser, url) {
    test("every text is there in both languages, in every part of the page", async () => {
        const page = await openPage(browser, url);
        for (const language of ["en", "zh", "en"]) {
            await choose(page, "#language", language);
            for (const key of ["shift", "ninth", "vehicle"]) {
                await openExample(page, key);
                await runAll(page);
                await page.evaluate(() => {
                    document.querySelectorAll("details").forEach((each) => { each.open = true; });
                });
                await page.click(keyed("page.ask"));
                const text = await page.evaluate("document.body.innerText + document.title");
                holds(`no missing text in ${language}, ${key}: ${/⟦[^⟧]*⟧/.exec(text)?.[0]}`, !text.includes("⟦"));
            }
            const lang = await page.evaluate("document.documentElement.lang");
            equal("the language of the document", lang, language === "zh" ? "zh-Hans" : "en");
        }
        equal("errors", page.errors, []);
        await page.close();
    });
    test("a page in Chinese has no English sentence left", async () => {
        const page = await openPage(browser, url, "zh");
        await openExample(page, "shift");
        await runAll(page);
        const text = await page.evaluate(() => document.querySelector("main").innerText.replace(/PTT|PSTN|PABX|OTAPVer|ParamSum|DataLength|CfgResult|FailedCfgID/g, ""));
        const words = text.match(/[A-Za-z]+ [a-z]+ [a-z]+ [a-z]+/g) ?? [];
        equal("English words", words, []);
        await page.close();
    });
}

// Tab until the control of this key has the focus; how many presses, or null.
async function tabTo(page, key, most = 80) {
    for (let each = 1; each <= most; each++) {
        await page.key("Tab");
        if (await page.evaluate((wanted) => document.activeElement?.dataset.key === wanted || document.activeElement?.id === wanted, key)) return each;
    }
    return null;
}

function keyTests(browser, url) {
    test("by keys alone: an example is chosen, looked at first, taken, and a group called", async () => {
        const page = await openPage(browser, url);
        await page.evaluate(() => document.body.focus());
        holds("the examples", await tabTo(page, "page.example") !== null);
        await page.key("ArrowDown");
        await page.waitFor(() => app.series.length > 0);
        holds("look first", await tabTo(page, "page.look") !== null);
        await page.key("Enter");
        await page.waitFor(() => app.look !== null);
        holds("the focus stays", await page.evaluate(() => document.activeElement.dataset.key === "page.look"));
        await page.key("Tab");
        await page.key("Enter");
        await page.waitFor(() => app.series.position === 1);
        await drawn(page);
        holds("PTT", await tabTo(page, "ptt-4-0") !== null);
        await page.key("Enter");
        await page.waitFor(() => document.querySelector("#pressed .pressed") !== null);
        holds("it says what is called", (await said(page)).startsWith("PTT calls 100001"));
        await page.close();
    });
    test("every control has a name, and every picture too", async () => {
        const page = await openPage(browser, url);
        await openExample(page, "shift");
        await runAll(page);
        await page.evaluate(() => document.querySelectorAll("details").forEach((each) => { each.open = true; }));
        const roles = ["button", "combobox", "textbox", "checkbox", "link", "img", "progressbar", "DisclosureTriangle", "Canvas", "searchbox"];
        const unnamed = (await page.accessibility()).filter((node) => roles.includes(node.role) && node.name.trim() === "");
        equal("controls without a name", unnamed.map((node) => node.role), []);
        await page.close();
    });
    test("on a small screen nothing stands outside it", async () => {
        const page = await openPage(browser, url);
        await page.resize(360, 740, true);
        for (const [key, language] of [["shift", "en"], ["ninth", "zh"]]) {
            await choose(page, "#language", language);
            await openExample(page, key);
            await runAll(page);
            await drawn(page);
            const wide = await page.evaluate(() => document.documentElement.scrollWidth - document.documentElement.clientWidth);
            holds(`${wide} pixels too wide with ${key}`, wide <= 0);
        }
        await page.close();
    });
}

function savingTests(browser, url) {
    test("a saved record file and a link give the same messages back, a damaged link is said", async () => {
        const page = await openPage(browser, url);
        await openExample(page, "shift");
        await page.evaluate(() => goTo(3));
        const rows = await rowsShown(page);
        await page.click(keyed("page.save"));
        const file = await browser.download();
        equal("the file's name", file.name, "messages.rec");
        await page.click(keyed("page.link"));
        await page.waitFor(() => location.hash.startsWith("#v1="));
        const link = await page.evaluate("location.href");
        const other = await openPage(browser, link);
        equal("where the link leads", await position(other), 3);
        equal("its rows", await rowsShown(other), rows);
        await openFile(other, file.bytes);
        equal("the file's messages", await other.evaluate("app.series.length"), await page.evaluate("app.series.length"));
        const at = link.length - 40;
        const broken = await openPage(browser, `${link.slice(0, at)}${link[at] === "A" ? "B" : "A"}${link.slice(at + 1)}`);
        holds("the damaged link is said", (await textOf(broken, "#fault")).includes("damaged"));
        equal("errors", [...page.errors, ...other.errors, ...broken.errors], []);
        for (const each of [page, other, broken]) await each.close();
    });
    test("pasted bytes become the next message, and what is no byte is said", async () => {
        const page = await openPage(browser, url);
        await page.evaluate(() => document.querySelectorAll("details").forEach((each) => { each.open = true; }));
        await page.evaluate((text) => { document.querySelector("#hex").value = text; }, "0202 0000 08 04 08 01 CA 0007 42 01 5F 41 00");
        await page.click(keyed("page.addHex"));
        equal("one message", await page.evaluate("app.series.length"), 1);
        await takeNext(page);
        equal("its row", (await rowsShown(page)).lines, ["0 A (PABX 5)"]);
        await page.evaluate(() => { document.querySelector("#hex").value = "02 0G"; });
        await page.click(keyed("page.addHex"));
        holds("said", (await textOf(page, "#fault")).length > 10);
        equal("nothing came", await page.evaluate("app.series.length"), 1);
        await page.close();
    });
    test("forms: a group is named, a line added, a name too long is refused by the library", async () => {
        const page = await openPage(browser, url);
        await page.click("#compose-box summary");
        await page.click(keyed("form.add"));
        await choose(page, keyed("form.setting"), "line");
        await page.click(keyed("form.add"));
        await page.click(keyed("form.send"));
        await takeNext(page);
        const rows = await rowsShown(page);
        equal("the rows", [rows["group contacts"], rows.lines], [["0 巡逻一组 (100001)"], ["0 值班室 (PSTN 2345)"]]);
        await choose(page, keyed("form.setting"), "group");
        await page.evaluate((where) => {
            const field = document.querySelector(where);
            field.value = "巡".repeat(17);
            field.dispatchEvent(new Event("input", { bubbles: true }));
        }, keyed("form-name"));
        await page.click(keyed("form.send"));
        await takeNext(page);
        equal("its number", await page.evaluate("app.series.answers[1].number"), 4);
        await page.close();
    });
}

function setsTests(browser, url) {
    test("a vehicle's export: taken by a hand-held where it fits, refused at the lines where it does not", async () => {
        const page = await openPage(browser, url);
        await openExample(page, "vehicle");
        await takeNext(page);
        await page.click(keyed("page.exportTo"));
        holds("it fits", (await textOf(page, "#other")).includes("All ten parts are taken"));
        await takeNext(page);
        await page.click(keyed("page.otherStart"));
        await page.click(keyed("page.exportTo"));
        const told = await textOf(page, "#other");
        holds("it does not", told.includes("Taken up to part 1") && told.includes("failed ID 34"));
        await choose(page, keyed("page.otherKind"), "vehicle");
        await page.click(keyed("page.otherAll"));
        await choose(page, keyed("page.kind"), "handheld");
        await page.click(keyed("page.exportFrom"));
        equal("ten parts more in the series", await page.evaluate("app.series.length"), 12);
        await page.close();
    });
    test("a report is asked and read; a short update is proposed, checked and taken", async () => {
        const page = await openPage(browser, url);
        await openExample(page, "shift");
        await runAll(page);
        await page.click(keyed("page.ask"));
        const report = await textOf(page, "#report");
        holds("the group contacts and lines are read", report.includes("10000D") && report.includes("治安中队") && report.includes("消防队"));
        await page.click(keyed("page.otherAll"));
        await page.click(keyed("page.propose"));
        holds("nothing to propose", (await textOf(page, "#update")).includes("19"));
        await page.evaluate((line) => app.other.commit(Uint8Array.from(line)).number, LINE);
        await page.click(keyed("page.propose"));
        holds("yes", (await textOf(page, "#update")).includes("✓ Yes"));
        await page.click(keyed("page.proposalNext"));
        await page.evaluate(() => goTo(app.series.length));
        equal("the same tables", await page.evaluate("hexBytes(app.set.exportPart(1).bytes) === hexBytes(app.other.exportPart(1).bytes)"), true);
        await page.close();
    });
    test("the store is drawn, changed bytes are counted and marked, a region's bytes open", async () => {
        const page = await openPage(browser, url);
        await openFile(page, records([LINE]));
        await takeNext(page);
        const changed = await page.evaluate("changedBytes(app.series.before, app.set.store()).reduce((sum, [from, to]) => sum + to - from, 0)");
        holds("some changed", changed > 3);
        holds("it is said", (await textOf(page, "#store")).includes(`the last message changed ${changed},`));
        const dots = await page.evaluate(() => {
            const canvas = document.querySelector("#picture");
            const { data } = canvas.getContext("2d").getImageData(0, 0, canvas.width, canvas.height);
            let black = 0;
            for (let at = 0; at < data.length; at += 4) if (data[at] === 0 && data[at + 1] === 0 && data[at + 2] === 0) black += 1;
            return black;
        });
        equal("twelve black points around each dot", dots, changed * 12);
        await page.click(keyed("region-lines"));
        holds("its bytes", (await page.evaluate(() => document.querySelectorAll("#store .byte.changed").length)) > 0);
        await page.close();
    });
    test("nothing is fetched, and what is proved stands on the page", async () => {
        const page = await openPage(browser, url);
        await openExample(page, "shift");
        await runAll(page);
        equal("asked for from outside", page.outside(), []);
        const proved = await textOf(page, "#proved-box");
        holds("proved and tested", proved.includes("Proved: the library") && proved.includes("Tested, not proved"));
        equal("errors", page.errors, []);
        await page.close();
    });
}

export function allUseTests(browser, url) {
    languageTests(browser, url);
    keyTests(browser, url);
    savingTests(browser, url);
    setsTests(browser, url);
}
