// web/tests/chromium_test.mjs: the driver itself, on a little page of its own.
import { mkdtempSync, readFileSync, rmSync, writeFileSync } from "node:fs";
import { createServer } from "node:http";
import { tmpdir } from "node:os";
import { join } from "node:path";
import { pathToFileURL } from "node:url";
import { chromiumPath, launch } from "./chromium.mjs";
import { after, equal, holds, run, test, throws } from "./harness.mjs";

const html = `<!doctype html><html lang="en"><meta charset="utf-8"><meta name="viewport" content="width=device-width"><title>a little page</title>
<style>
body { margin: 0; height: 2000px; } button { position: absolute; left: 20px; } #far { top: 1800px; } #near { top: 100px; } #under { top: 200px; }
#over { position: absolute; left: 0; top: 190px; width: 300px; height: 60px; background: #ccc; } #none { display: none; }
</style>
<input id="text" aria-label="a text"><input id="file" type="file" multiple><label><input id="box" type="checkbox">a box</label>
<button id="near">near</button><button id="far">far</button><button id="under">under</button><div id="over"></div><button id="none">none</button>
<script>
const seen = [];
for (const type of ["click", "dblclick", "keydown", "keyup", "input", "mousedown"]) {
    addEventListener(type, (event) => seen.push([type, event.target.id, event.key ?? event.detail, event.isTrusted, event.shiftKey, event.ctrlKey]));
}
const seenOf = (...types) => seen.splice(0).filter(([type]) => types.includes(type));
const busy = (milliseconds) => { const end = performance.now() + milliseconds; while (performance.now() < end); };
const workerOf = (code) => new Worker(URL.createObjectURL(new Blob([code], { type: "text/javascript" })));
const answerOf = (worker) => new Promise((done, failed) => { worker.onmessage = ({ data }) => done(data); worker.onerror = failed; });
</script></html>`;

const folder = mkdtempSync(join(tmpdir(), "chromium-test-"));
process.on("exit", () => rmSync(folder, { recursive: true, force: true }));
const path = join(folder, "little.html");
const url = pathToFileURL(path).href;
writeFileSync(path, html);
const browser = await launch({ width: 800, height: 600, language: "zh-CN" });
after(() => browser.close());
const page = await browser.newPage();

// A test of its own page, opened anew, with nothing in its lists.
const onPage = (name, fn) => test(name, async () => {
    await page.resize(800, 600);
    await page.open("about:blank");
    await page.open(url);
    for (const list of [page.requests, page.errors, page.dialogs]) list.length = 0;
    await fn();
});
const sizeOf = (file) => {
    const bytes = readFileSync(file);
    return [bytes.subarray(0, 8).toString("latin1"), bytes.readUInt32BE(16), bytes.readUInt32BE(20)];
};
const pngHead = "\x89PNG\r\n\x1a\n";

test("Chromium is found where the environment says", () => {
    const { CHROMIUM } = process.env;
    const found = (value) => {
        process.env.CHROMIUM = value;
        return chromiumPath();
    };
    equal("a path that is not there", found(join(folder, "nothing")), null);
    equal("a file that does not run", found(path), null);
    equal("a path", found(process.execPath), process.execPath);
    if (CHROMIUM === undefined) delete process.env.CHROMIUM;
    else process.env.CHROMIUM = CHROMIUM;
    holds("one is here", chromiumPath() !== null);
});

test("a page is opened and loaded", async () => {
    await page.open(url);
    equal("its title", await page.evaluate("document.title"), "a little page");
    equal("its state", await page.evaluate("document.readyState"), "complete");
    equal("its size", await page.evaluate("[innerWidth, innerHeight]"), [800, 600]);
    equal("its language", await page.evaluate("navigator.language"), "zh-CN");
    equal("what it asked for", page.requests.map((request) => request.url), [url]);
    await page.evaluate("window.mark = 1");
    await page.open(`${url}#here`);
    equal("the page stays where only the fragment changes", await page.evaluate("[location.hash, window.mark]"), ["#here", 1]);
    await throws("a file that is not there", () => page.open(`${url}.not`), "ERR_FILE_NOT_FOUND");
});

onPage("evaluate gives values, awaits, and throws", async () => {
    equal("a function of values", await page.evaluate((a, b) => ({ sum: a + b.c }), 1, { c: 2 }), { sum: 3 });
    equal("a promise", await page.evaluate(async () => "later"), "later");
    equal("a BigInt", await page.evaluate("2n ** 64n"), 18446744073709551616n);
    equal("what JSON has not", await page.evaluate("NaN"), NaN);
    equal("nothing", await page.evaluate("undefined"), undefined);
    await throws("an exception", () => page.evaluate("null.nothing"), "Cannot read properties of null");
    await throws("a rejection", () => page.evaluate(async () => { throw new RangeError("too far"); }), "RangeError: too far");
    await throws("a string that is thrown", () => page.evaluate(() => { throw "a string"; }), "a string");
});

onPage("waitFor waits, and says what did not come", async () => {
    await page.evaluate("setTimeout(() => { window.come = { to: 7 }; }, 150), 0");
    equal("what came", await page.waitFor(() => window.come.to), 7);
    await throws("what never comes", () => page.waitFor("window.never", 100), "not within 100 ms: window.never");
    await throws("what throws all the while", () => page.waitFor("window.never.ever", 100), "Cannot read properties of undefined");
});

onPage("clicks are a user's", async () => {
    await page.click("#near");
    const near = ["mousedown", "click"].map((type) => [type, "near", 1, true, false, false]);
    equal("near", await page.evaluate("seenOf('mousedown', 'click')"), near);
    await page.click("#far", { modifiers: ["Control"] });
    equal("far", await page.evaluate("seenOf('click')"), [["click", "far", 1, true, false, true]]);
    holds("it was scrolled to", await page.evaluate("scrollY > 1000"));
    await page.click("#near", { count: 2 });
    equal("twice", await page.evaluate("seenOf('dblclick')"), [["dblclick", "near", 2, true, false, false]]);
    await page.click("#box");
    equal("the box", await page.evaluate("document.querySelector('#box').checked"), true);
    await throws("what is covered", () => page.click("#under"), 'covered by <div id="over">');
    await throws("what is not shown", () => page.click("#none"), "has no size");
    await throws("what is not there", () => page.click("#nowhere"), "no element #nowhere");
});

onPage("keys are a user's", async () => {
    const focus = () => page.evaluate("document.activeElement.id");
    await page.key("Tab");
    equal("Tab", await focus(), "text");
    await page.type("aZ 1_é巡");
    equal("the text", await page.evaluate("document.activeElement.value"), "aZ 1_é巡");
    // The letter of each: down or up; a capital with Shift held.
    const strokes = (await page.evaluate("seenOf('keydown', 'keyup')")).filter(([, , , trusted]) => trusted)
        .map(([type, , key, , shift]) => `${key}${shift ? type[3].toUpperCase() : type[3]}`);
    equal("their events", strokes.join(" "), "Tabd Tabu ad au ShiftD ZD ZU Shiftu  d  u 1d 1u ShiftD _D _U Shiftu");
    await page.key("Home");
    await page.key("Delete");
    await page.key("End", "Shift");
    equal("the selection", await page.evaluate("[getSelection().toString(), document.activeElement.value]"), ["Z 1_é巡", "Z 1_é巡"]);
    for (const held of ["Control", "Alt", "Meta"]) await page.key("b", held);
    equal("with these nothing is typed", await page.evaluate("document.activeElement.value"), "Z 1_é巡");
    await page.key("a", ["Control"]);
    await page.key("Backspace");
    equal("all is gone", await page.evaluate("document.activeElement.value"), "");
    await page.key("Tab");
    await page.key("Tab", ["Shift"]);
    equal("there and back", await focus(), "text");
    await page.evaluate("document.querySelector('#box').focus(), seenOf()");
    await page.key("Space");
    equal("the box", await page.evaluate("document.querySelector('#box').checked"), true);
    await page.evaluate("document.querySelector('#near').focus(), seenOf()");
    await page.key("Enter");
    equal("a button by Enter", (await page.evaluate("seenOf('click')")).map(([, id]) => id), ["near"]);
    await throws("no such key", () => page.key("Entre"), "no key Entre");
    await throws("no such modifier", () => page.key("a", "Ctrl"), "no modifier Ctrl");
});

onPage("a file is chosen and read", async () => {
    const files = ["one.rec", "two.rec"].map((name) => join(folder, name));
    files.forEach((file, index) => writeFileSync(file, Buffer.from([0, 255, index])));
    await page.setFile("#file", files[0]);
    const read = () => Promise.all([...document.querySelector("#file").files]
        .map(async (file) => [file.name, ...new Uint8Array(await file.arrayBuffer())]));
    equal("one", await page.evaluate(read), [["one.rec", 0, 255, 0]]);
    equal("the page is told", (await page.evaluate("seenOf('input')")).map(([, id]) => id), ["file"]);
    await page.setFile("#file", files);
    equal("two", await page.evaluate(read), [["one.rec", 0, 255, 0], ["two.rec", 0, 255, 1]]);
    await throws("no such input", () => page.setFile("#nowhere", files), "no element #nowhere");
});

onPage("a file is saved", async () => {
    await page.evaluate(() => {
        const link = document.createElement("a");
        link.href = URL.createObjectURL(new Blob([new Uint8Array([1, 0, 254])]));
        link.download = "saved.rec";
        link.click();
    });
    const { name, bytes } = await browser.download();
    equal("its name", name, "saved.rec");
    equal("its bytes", [...bytes], [1, 0, 254]);
    await throws("no other comes", () => browser.download(50), "not within 50 ms: a download");
});

onPage("pictures have their sizes", async () => {
    const file = join(folder, "picture.png");
    await page.screenshot(file);
    equal("in view", sizeOf(file), [pngHead, 800, 600]);
    const small = readFileSync(file);
    await page.screenshot(file, { full: true });
    equal("full", sizeOf(file), [pngHead, 800, 2000]);
    await page.resize(360, 640, true);
    await page.screenshot(file);
    equal("mobile", sizeOf(file), [pngHead, 360, 640]);
    const fingers = await page.evaluate("[innerWidth, matchMedia('(pointer: coarse)').matches, navigator.maxTouchPoints > 0]");
    equal("the page knows", fingers, [360, true, true]);
    await page.resize(800, 600);
    await page.evaluate("document.body.style.background = 'red', 0");
    await page.screenshot(file);
    holds("another page is another picture", !readFileSync(file).equals(small));
});

onPage("media are emulated", async () => {
    const media = () => page.evaluate("['(forced-colors: active)', '(prefers-color-scheme: dark)'].map((query) => matchMedia(query).matches)");
    equal("at first", await media(), [false, false]);
    await page.emulateMedia({ colors: "forced", scheme: "dark" });
    equal("then", await media(), [true, true]);
    await page.emulateMedia({ colors: "", scheme: "light" });
    equal("and back", await media(), [false, false]);
});

// Another process may take the machine for a while, so that an idle page has one quiet time of five; a busy one never has.
onPage("frames tell a busy page from an idle one", async () => {
    const idle = [];
    const wait = () => new Promise((done) => setTimeout(done, 300));
    const quiet = ({ frames, longest, gaps }) => frames > 5 && longest <= 50 && gaps.length === 0;
    while (idle.length < 5 && !idle.some(quiet)) idle.push(await page.frames(wait));
    holds(`an idle page has a quiet time: ${JSON.stringify(idle)}`, idle.some(quiet));
    const { longest, gaps, tasks } = await page.frames(() => page.evaluate("setTimeout(() => busy(120)), 0").then(wait));
    holds(`the longest gap is that of 120 ms: ${longest}`, longest >= 115);
    equal("it is in the list", Math.max(...gaps), longest);
    holds(`the task is long: ${tasks}`, tasks.some((duration) => duration >= 115));
    const last = await page.frames(() => page.evaluate("busy(120)"));
    holds(`a gap at the end counts: ${last.longest}`, last.longest >= 115);
});

onPage("what is asked for is seen", async () => {
    equal("nothing at first", page.outside(), []);
    const tried = await page.evaluate(() => fetch("http://198.51.100.1/page").then(() => "there", () => "failed"));
    equal("it does not come", tried, "failed");
    equal("of the page", page.outside(), ["http://198.51.100.1/page"]);
    await page.evaluate(() => answerOf(workerOf("fetch('http://worker.example/').catch(() => postMessage('failed'))")));
    await page.evaluate(() => new Promise((done) => { new WebSocket("ws://socket.example/").onerror = done; }));
    await page.evaluate(() => new Promise((done) => {
        const frame = document.createElement("iframe");
        frame.onload = done;
        frame.srcdoc = "<img src='http://frame.example/'>";
        document.body.append(frame);
    }));
    const others = ["http://worker.example/", "ws://socket.example/", "http://frame.example/"];
    equal("of workers, sockets and frames", page.outside().slice(1), others);
    await page.evaluate(() => fetch("data:text/plain,x").then((answer) => answer.text()));
    equal("data is not outside", page.outside().length, 4);
    holds("but is seen", page.requests.some((request) => request.url === "data:text/plain,x"));
});

onPage("nothing is reached, not even this machine", async () => {
    let reached = 0;
    const server = createServer((request, answer) => answer.end(String(reached += 1)));
    await new Promise((done) => server.listen(0, "127.0.0.1", done));
    const address = `http://127.0.0.1:${server.address().port}/`;
    equal("what came", await page.evaluate((at) => fetch(at, { mode: "no-cors" }).then(() => "an answer", () => "nothing"), address), "nothing");
    server.close();
    equal("how often it was reached", reached, 0);
    equal("it was asked for", page.outside(), [address]);
});

onPage("what goes wrong is seen", async () => {
    equal("nothing at first", page.errors, []);
    await page.evaluate("console.log('fine'), console.warn('well'), 0");
    await page.evaluate("setTimeout(() => { throw new Error('in a timer'); }), 0");
    await page.evaluate("Promise.reject(new Error('unhandled')), 0");
    await page.evaluate("console.error('said', 5, { a: 1 }), 0");
    await page.evaluate("workerOf('throw new Error(`in a worker`)'), 0");
    const seen = (words) => page.errors.filter((error) => error.includes(words)).length;
    await page.pipe.until(() => seen("in a worker") > 0 && seen("unhandled") > 0, 60000, () => JSON.stringify(page.errors));
    equal("an exception", seen("Error: in a timer"), 1);
    equal("a rejection", seen("Error: unhandled"), 1);
    equal("a line", seen("console.error: said 5 Object"), 1);
    equal("nothing that is no error", seen("fine") + seen("well"), 0);
    await page.evaluate(() => fetch("http://nowhere.example/").catch(() => 0));
    await page.pipe.until(() => seen("ERR_NAME_NOT_RESOLVED http://nowhere.example/") === 1, 60000, () => JSON.stringify(page.errors));
});

onPage("a worker of a Blob works in a page from disk", async () => {
    const answer = await page.evaluate(async () => {
        const worker = workerOf("onmessage = ({ data }) => postMessage([location.protocol, data.map((byte) => byte + 1)])");
        worker.postMessage(new Uint8Array([1, 2, 255]));
        const [protocol, bytes] = await answerOf(worker);
        return [protocol, ...bytes];
    });
    equal("its answer", answer, ["blob:", 2, 3, 0]);
    equal("nothing went wrong", page.errors, []);
    equal("nothing was asked for outside", page.outside(), []);
});

onPage("names of controls are seen", async () => {
    const nodes = await page.accessibility();
    const of = (role) => nodes.filter((node) => node.role === role).map((node) => node.name);
    equal("buttons, but not the hidden one", of("button").filter((name) => !/file/i.test(name) && /^[a-z]/.test(name)), ["near", "far", "under"]);
    equal("the text", of("textbox"), ["a text"]);
    equal("the box", of("checkbox"), ["a box"]);
    await page.evaluate("document.querySelector('#near').textContent = '', 0");
    equal("a button without a name", (await page.accessibility()).filter((node) => node.role === "button" && node.name === "").length, 1);
});

onPage("questions of the page are answered", async () => {
    equal("yes", await page.evaluate("confirm('really?')"), true);
    page.acceptsDialogs = false;
    equal("no", await page.evaluate("confirm('again?')"), false);
    page.acceptsDialogs = true;
    equal("what was asked", page.dialogs, [{ type: "confirm", message: "really?" }, { type: "confirm", message: "again?" }]);
});

onPage("two pages do not see each other", async () => {
    const other = await browser.newPage();
    await other.open(url);
    await other.evaluate("console.error('of the other'), 0");
    await other.pipe.until(() => other.errors.length === 1, 60000, "its error");
    equal("the first's", page.errors, []);
    const { frames } = await page.frames(() => new Promise((done) => setTimeout(done, 200)));
    holds(`the first has frames while the other is open: ${frames}`, frames > 2);
    await other.close();
});

await run({ seconds: 120 });
