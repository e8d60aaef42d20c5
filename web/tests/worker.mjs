// worker.mjs: the desk behind its worker, in a real one of node and over a scope of our own: the answers and rows of a hand-held, steps back and on,
// a stop that is obeyed, a full area, and results of messages that were dropped meanwhile.
import assert from "node:assert";
import { readFileSync } from "node:fs";
import { Worker } from "node:worker_threads";
import { RadioSet } from "../parts/engine.js";
import { DeskClient, deskWorkerMain } from "../parts/worker.js";
import { moduleBytes, modulesOf } from "./modules.mjs";

const line = (digit) => [2, 2, 0, 0, 8, 4, 8, 1, 0xca, 0, 7, 0x42, 1, digit * 16 + 15, 0x41 + digit, 0];
const refused = [2, 2, 0, 0, 8, 4, 8, 1, 0xca, 0, 7, 0x42, 1, 0xaf, 0, 0];
const QUICK = Array.from({ length: 63 }, (_, index) => [index, ...new Array(23).fill(0x78), 0]).flat();
const long = [2, 2, 0, 0, 8, 4, 8, 1, 0xcc, (QUICK.length + 3) >> 8, (QUICK.length + 3) & 255, 0x7f, ...QUICK];
const bytes = (messages) => messages.map((message) => Uint8Array.from(message));

// A worker of this thread: what is posted arrives in a later turn, as between two threads.
function fakeWorker() {
    const scope = { postMessage: (data) => setTimeout(() => page.onmessage({ data: structuredClone(data) }), 0) };
    const page = { postMessage: (data) => setTimeout(() => scope.onmessage({ data: structuredClone(data) }), 0) };
    deskWorkerMain(scope);
    return { page, end: () => {} };
}

// A real one, of a classic script: both parts one behind the other, without imports and exports, as the page has them.
function realWorker() {
    const text = (name) => readFileSync(new URL(`../parts/${name}.js`, import.meta.url), "utf8");
    const part = (name) => text(name).replace(/^import .*\n/gm, "").replace(/^export /gm, "");
    const own = `const { parentPort } = require("node:worker_threads");
        const self = { postMessage: (data) => parentPort.postMessage(data) };
        deskWorkerMain(self);
        parentPort.on("message", (data) => self.onmessage({ data }));`;
    const worker = new Worker(["\"use strict\";", part("engine"), part("worker"), own].join("\n"), { eval: true });
    const page = { postMessage: (data) => worker.postMessage(data) };
    worker.on("message", (data) => page.onmessage({ data }));
    worker.on("error", (error) => { throw error; });
    return { page, end: () => worker.terminate() };
}

// A client that keeps what it hears, and waits for things to be heard.
class Heard {
    constructor({ page, end }) {
        this.client = new DeskClient(page);
        this.end = end;
        this.list = [];
        for (const name of ["onReady", "onTook", "onRows", "onFull", "onAt", "onMissing"]) {
            this.client[name] = (data) => this.list.push({ name, ...data });
        }
        this.client.load(moduleBytes());
    }

    of(name) {
        return this.list.filter((heard) => heard.name === name);
    }

    async until(condition) {
        const end = Date.now() + 60000;
        while (!condition()) {
            if (Date.now() > end) throw new Error(`nothing came: ${JSON.stringify(this.list.slice(-3))}`);
            await new Promise((then) => setTimeout(then, 5));
        }
    }

    async rows(position, list) {
        const before = this.of("onRows").length;
        this.client.rows(position, list);
        await this.until(() => this.of("onRows").length > before && this.of("onRows").pop().last);
        return this.of("onRows").slice(before).flatMap(({ rows }) => rows).map(({ units }) => units && [...units]);
    }
}

// The answers and rows of a hand-held that was sent the same.
async function likeAHandheld(heard) {
    const set = new RadioSet(modulesOf(), "handheld");
    const sent = bytes([line(1), refused, line(2), line(3)]);
    const wanted = sent.map((message) => set.commit(message));
    heard.client.send(0, sent);
    await heard.until(() => heard.of("onTook").length === 4);
    const took = heard.of("onTook");
    assert.deepEqual(took.map(({ position, packed }) => [position, packed]), wanted.map(({ packed }, at) => [at + 1, packed.toString()]));
    assert.deepEqual(took.map(({ reply }) => [...reply]), wanted.map(({ reply }) => [...reply]));
    assert.deepEqual(took.map(({ used }) => used), [18, 18, 36, 54]);
    const list = set.tables().flatMap(({ table, first, last }) => Array.from({ length: last - first + 1 }, (_, at) => [table, first + at]));
    const shown = list.map(([table, index]) => set.row(table, index)).map((row) => row && [...row.units]);
    assert.deepEqual(await heard.rows(4, list), shown);
    // A step back, and on again without a call of the engine.
    const three = [[1, 0], [1, 1], [1, 2]];
    assert.deepEqual(await heard.rows(2, three), [[0, 0x42], null, null]);
    assert.deepEqual(await heard.rows(3, three), [[0, 0x42], [0, 0x43], null]);
    heard.client.goTo(1);
    await heard.until(() => heard.of("onAt").length === 1);
    assert.deepEqual([heard.of("onAt")[0].position, heard.of("onAt")[0].used], [1, 18]);
    assert.equal(heard.of("onTook").length, 4);
}

// Another message from position 1 on; the positions behind it are gone.
async function anotherWay(heard) {
    heard.client.send(1, bytes([line(5)]));
    await heard.until(() => heard.of("onTook").length === 5);
    assert.deepEqual(await heard.rows(2, [[1, 0], [1, 1], [1, 2]]), [[0, 0x42], [0, 0x46], null]);
    heard.client.rows(3, [[1, 0]]);
    heard.client.send(9, bytes([line(6)]));
    await heard.until(() => heard.of("onMissing").length === 2);
    assert.deepEqual(heard.of("onMissing").map(({ what, position }) => [what, position]), [["take", 2], ["rows", 2]]);
}

// Long messages until the area is full: 18, nothing behind it, and rows before it are still shown.
async function untilFull(heard) {
    const from = heard.of("onTook").length;
    heard.client.send(0, bytes(new Array(30).fill(long)));
    await heard.until(() => heard.of("onFull").length === 1);
    const took = heard.of("onTook").slice(from);
    const full = took[took.length - 1];
    assert.deepEqual([full.packed, full.full, full.position, took.length], ["18", true, 21, 21]);
    assert.equal(took[19].used, full.used);
    assert.deepEqual((await heard.rows(20, [[2, 62]]))[0].length, 46);
    heard.client.send(21, bytes([line(1)]));
    await heard.until(() => heard.of("onFull").length === 2);
}

// Stopped after the first answers, it takes nothing more; what a later send drops is not heard.
async function stopped(heard) {
    const from = heard.of("onTook").length;
    heard.client.send(0, bytes(new Array(19).fill(long)));
    await heard.until(() => heard.of("onTook").length > from + 2);
    heard.client.stop();
    heard.client.rows(0, [[1, 0]]);
    await heard.until(() => heard.of("onRows").pop().position === 0);
    const then = heard.of("onTook").length;
    assert(then < from + 19, "a stop is obeyed");
    await new Promise((wait) => setTimeout(wait, 300));
    assert.equal(heard.of("onTook").length, then);
    heard.client.send(0, bytes(new Array(3).fill(long)));
    heard.client.send(0, bytes([line(7)]));
    await heard.until(() => heard.of("onTook").length === then + 1);
    assert.deepEqual([heard.of("onTook").pop().position, heard.of("onTook").pop().used], [1, 18]);
    assert.deepEqual(await heard.rows(1, [[1, 0]]), [[0, 0x48]]);
}

async function all(made) {
    const heard = new Heard(made);
    for (const part of [likeAHandheld, anotherWay, untilFull, stopped]) await part(heard);
    assert.equal(heard.of("onReady").length, 1);
    made.end();
}

// Answers to messages that a later send dropped come too late; those before it are heard.
function lateAnswers() {
    const [page, heard] = [{ postMessage: () => {} }, []];
    const client = new DeskClient(page);
    client.onTook = ({ position }) => heard.push(position);
    client.send(0, []);
    client.send(2, []);
    for (const position of [1, 2, 3]) page.onmessage({ data: { op: "took", run: 1, position } });
    page.onmessage({ data: { op: "took", run: 2, position: 3 } });
    assert.deepEqual(heard, [1, 2, 3]); // the last one of the second send
}

lateAnswers();
await all(fakeWorker());
await all(realWorker());
console.log("a desk in a worker answers and shows what a hand-held does, steps back, stops, and is full");
