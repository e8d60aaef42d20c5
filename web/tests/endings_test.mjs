// web/tests/endings_test.mjs: no Chromium, nor its folder, is left by a process that started one, however that process ends. It looks into /proc.
import { spawn } from "node:child_process";
import { existsSync, mkdtempSync, readdirSync, readFileSync, rmSync } from "node:fs";
import { tmpdir } from "node:os";
import { join } from "node:path";
import { equal, holds, run, test } from "./harness.mjs";

const folder = mkdtempSync(join(tmpdir(), "endings-test-"));
process.on("exit", () => rmSync(folder, { recursive: true, force: true }));
const from = (file) => JSON.stringify(new URL(file, import.meta.url).href);
const pause = (milliseconds) => new Promise((done) => setTimeout(done, milliseconds));

// A program of node: what it printed and how it ended; `heed` is given what it has printed by then, and its process.
function program(code, heed = () => {}) {
    const env = { ...process.env, TMPDIR: folder };
    const child = spawn(process.execPath, ["--input-type=module", "-e", code], { stdio: ["ignore", "pipe", "ignore"], env });
    let printed = "";
    child.stdout.setEncoding("utf8").on("data", (text) => heed((printed += text), child));
    return new Promise((done) => child.on("close", (code, signal) => done({ printed, ended: signal ?? code })));
}

// The processes of a group that still run; one that nobody has waited for yet does not.
const statOf = (pid) => {
    try {
        return readFileSync(`/proc/${pid}/stat`, "latin1").replace(/^.*\) /s, "").split(" ");
    } catch {
        return ["Z"];
    }
};
const processes = () => readdirSync("/proc").filter((name) => /^\d+$/.test(name)).map(statOf);
const alive = (group) => processes().filter(([state, , of]) => state !== "Z" && of === String(group));

// Starts a Chromium, prints its process and its folder, and then does this.
const launched = (then, heed) => program(`import { launch } from ${from("chromium.mjs")}; import { run, test } from ${from("harness.mjs")};
    const browser = await launch(); const page = await browser.newPage(); console.log(browser.pid, browser.folder); ${then}`, heed);

// How it ends, and that nothing of it is left soon after; where nothing could remove the folder, it may be there.
async function leavesNothing(what, then, ended, { heed = () => {}, folderStays = false } = {}) {
    let most = 0;
    const result = await launched(then, (printed, child) => {
        most = Math.max(most, alive(parseInt(printed, 10)).length);
        heed(child);
    });
    const [pid, at] = result.printed.split("\n")[0].split(" ");
    equal(`${what}: how it ends`, result.ended, ended);
    holds(`${what}: Chromium ran, in several processes: ${most}`, most > 2);
    for (let wait = 0; wait < 100 && alive(pid).length > 0; wait += 1) await pause(50);
    equal(`${what}: what still runs`, alive(pid).length, 0);
    equal(`${what}: its folder is there`, existsSync(at), folderStays);
}

const never = "await new Promise(() => setInterval(() => {}, 1000));";
const endings = [
    ["closing it", `setTimeout(async () => { await browser.close(); process.exitCode = 3; }, 200);`, 3],
    ["the process' end", "setTimeout(() => process.exit(4), 200);", 4],
    ["what is thrown", "setTimeout(() => { throw new Error('thrown'); }, 200);", 1],
    ["a rejection", "setTimeout(() => Promise.reject(new Error('rejected')), 200);", 1],
    ["a test that hangs", `test("hangs", async () => { ${never} }); await run({ seconds: 0.3 });`, 1],
    ["a page that hangs", `test("hangs", () => page.evaluate("for (;;);")); await run({ seconds: 0.3 });`, 1],
    ["SIGTERM", never, 143, { heed: (child) => child.kill("SIGTERM") }],
    ["SIGINT", never, 130, { heed: (child) => child.kill("SIGINT") }],
    ["SIGKILL", never, "SIGKILL", { heed: (child) => child.kill("SIGKILL"), folderStays: true }],
];
for (const [what, ...rest] of endings) test(`nothing is left by ${what}`, () => leavesNothing(what, ...rest));

// What a program is told of the Chromium that it used, when that has ended in this way.
const deaths = [
    ["a Chromium that dies", `process.kill(-browser.pid, "SIGKILL");`, "chromium ended with SIGKILL"],
    ["a page that crashes", `page.open("chrome://crash").catch(() => {});`, "the page crashed"],
    ["a page that does not answer", `page.pipe.limit = 300; page.evaluate("for (;;);").catch(() => {});`, "Runtime.evaluate: no answer in 300 ms"],
];
const asks = `await page.evaluate("1").catch((error) => console.log(error.message.split(",")[0])); process.exit(0);`;
const isTold = async (then, words) => equal("the words", (await launched(then + asks)).printed.split("\n")[1], words);
for (const [what, ...rest] of deaths) test(`${what} is told`, () => isTold(...rest));

await run();
