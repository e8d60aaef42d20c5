// worker.js: the plain engine in a worker. A call takes time that grows with the square of what the area keeps, up to seconds: no page waits for one.
// A position is how many messages of the series were sent: position 0 is a fresh area, and message n of the series leads from position n - 1 to n.
import { Desk, loadModules } from "./engine.js";

const DESK_SLICE = 30; // milliseconds of calls, or one call, before the worker looks for messages
const DESK_FULL = 18;

// The area at each position: it only grows at its end, so the longest one and the used lengths are all of them.
class DeskPositions {
    constructor(modules) {
        this.desk = new Desk(modules);
        this.usedAt = [0];
        this.longest = this.desk.area();
    }

    reached() {
        return this.usedAt.length - 1;
    }

    goTo(position) {
        this.desk.load(this.longest);
        this.desk.backTo(this.usedAt[position]);
    }

    // Forgets the positions behind this one.
    cut(position) {
        this.goTo(position);
        this.usedAt.length = position + 1;
        this.longest = this.desk.area();
    }

    // Sends a message at the last position; a full area stays, and there is no position behind it.
    take(message) {
        this.goTo(this.reached());
        const answer = this.desk.take(message);
        if (answer.number === DESK_FULL) return answer;
        this.usedAt.push(this.desk.used());
        this.longest = this.desk.area();
        return answer;
    }
}

// What a worker has to do: messages to take, and rows to show, the last ones asked for. Rows go first, as soon as their position is reached.
class DeskJobs {
    constructor(post) {
        this.post = post;
        this.positions = null;
        this.waiting = [];
        this.run = 0;
        this.rows = null;
        this.full = false;
    }

    load({ modules }) {
        this.positions = new DeskPositions(loadModules(modules));
        this.stop();
        this.full = false;
        this.post({ op: "ready" });
    }

    // Messages from a position on; those that were sent or wait behind it are dropped.
    take({ from, messages, run }) {
        const reached = this.positions.reached();
        if (from > reached + this.waiting.length) return this.missing("take", run);
        this.waiting.length = Math.max(0, from - reached);
        if (from < reached) this.positions.cut(from);
        this.waiting.push(...messages);
        this.run = run;
        this.full = false;
    }

    goto({ position, run }) {
        if (position > this.positions.reached()) return this.missing("goto", run);
        this.positions.goTo(position);
        this.post({ op: "at", run, position, used: this.positions.desk.used() });
    }

    rowsOf({ position, list, run }) {
        this.rows = { position, list: [...list], run };
    }

    stop() {
        this.waiting = [];
        this.rows = null;
    }

    canShow() {
        return this.rows !== null && this.rows.position <= this.positions.reached();
    }

    // Works for a slice of time, one call at least; says whether there is more to do.
    work(now) {
        const end = now() + DESK_SLICE;
        const more = () => this.rows !== null || this.waiting.length > 0;
        while (more()) {
            if (this.canShow()) this.showSome(now, end);
            else if (this.waiting.length > 0) this.takeOne();
            else this.showNone();
            if (now() >= end) break;
        }
        return more();
    }

    takeOne() {
        const answer = this.positions.take(this.waiting.shift());
        this.full = answer.number === DESK_FULL;
        const position = this.positions.reached() + (this.full ? 1 : 0);
        if (this.full) this.waiting = [];
        const { packed, reply } = answer;
        this.post({ op: "took", run: this.run, position, packed: packed.toString(), reply, used: this.positions.desk.used(), full: this.full });
    }

    showSome(now, end) {
        const { position, list, run } = this.rows;
        const rows = [];
        this.positions.goTo(position);
        do {
            if (list.length === 0) break;
            const [table, index] = list.shift();
            const row = this.positions.desk.row(table, index);
            rows.push({ table, index, units: row && row.units });
        } while (now() < end);
        if (list.length === 0) this.rows = null;
        this.post({ op: "rows", run, position, rows, last: list.length === 0 });
    }

    // Rows of a position that nothing leads to.
    showNone() {
        this.missing("rows", this.rows.run);
        this.rows = null;
    }

    // What was asked is of a position that is not reached; says which one is, and whether the area was full there.
    missing(what, run) {
        this.post({ op: "missing", what, run, position: this.positions.reached(), full: this.full });
    }
}

// Runs in the worker: scope is its self, or in tests anything with postMessage, on which onmessage is set.
export function deskWorkerMain(scope) {
    const jobs = new DeskJobs((message) => scope.postMessage(message));
    const orders = { load: "load", take: "take", goto: "goto", rows: "rowsOf", stop: "stop" };
    let running = false;
    const turn = () => {
        running = jobs.work(Date.now);
        if (running) setTimeout(turn, 0);
    };
    scope.onmessage = ({ data }) => {
        jobs[orders[data.op]](data);
        if (!running) setTimeout(turn, 0);
        running = true;
    };
}

// The page's side, over a Worker or anything with postMessage that calls onmessage.
export class DeskClient {
    constructor(worker) {
        this.worker = worker;
        this.run = 0;
        this.asked = 0;
        this.cuts = [];
        this.onReady = this.onTook = this.onRows = this.onFull = this.onAt = this.onMissing = () => {};
        worker.onmessage = ({ data }) => this.heard(data);
    }

    // The bytes of the modules: the worker needs the desk's alone.
    load(modules) {
        this.worker.postMessage({ op: "load", modules: { desk: modules.desk } });
    }

    // Messages that lead on from a position; what was sent behind it before is dropped, and answers to that are passed over.
    send(position, messages) {
        this.run += 1;
        this.cuts.push({ run: this.run, from: position });
        this.worker.postMessage({ op: "take", run: this.run, from: position, messages });
    }

    goTo(position) {
        this.worker.postMessage({ op: "goto", run: this.run, position });
    }

    // Rows [[table, index]] of a position; only the last list asked for is answered, in pieces.
    rows(position, list) {
        this.asked += 1;
        this.worker.postMessage({ op: "rows", run: this.asked, position, list });
    }

    // What waits is dropped; positions that were reached stay.
    stop() {
        this.asked += 1;
        this.worker.postMessage({ op: "stop" });
    }

    // Of a message that a later send dropped, on its way here.
    isDropped({ run, position }) {
        this.cuts = this.cuts.filter((cut) => cut.run > run);
        return this.cuts.some((cut) => cut.from < position);
    }

    heard(data) {
        const ofRows = data.op === "rows" || data.what === "rows";
        if (ofRows && data.run !== this.asked) return;
        if (data.op === "took" && this.isDropped(data)) return;
        const heard = { ready: this.onReady, took: this.onTook, rows: this.onRows, at: this.onAt, missing: data.full ? () => {} : this.onMissing };
        heard[data.op](data);
        if (data.full) this.onFull(data);
    }
}
