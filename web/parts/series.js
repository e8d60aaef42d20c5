// A series of messages and how far a set has taken it. Stepping back is loading a store that was kept and taking from there.
import { parseMessage, keyText } from "./wire.js";

const KEEP_EVERY = 64;

export class Series {
    constructor(set) {
        this.set = set;
        this.open([]);
    }

    // Another series, from a fresh store; a message is {kind, message}.
    open(records) {
        this.records = records;
        this.answers = [];
        this.position = 0;
        this.set.start();
        this.before = this.set.store();
        this.kept = new Map([[0, this.before]]);
    }

    get length() {
        return this.records.length;
    }

    // A message that comes next: what was taken before it stays taken.
    insertNext(message, kind = 0) {
        this.records.splice(this.position, 0, { kind, message });
        this.answers.length = this.position;
        this.forgetBehind();
    }

    forgetBehind() {
        for (const each of [...this.kept.keys()]) if (each > this.position) this.kept.delete(each);
    }

    // Takes the next message; null where there is none.
    takeNext() {
        if (this.position >= this.length) return null;
        this.before = this.set.store();
        const answer = this.set.commit(this.records[this.position].message);
        this.answers[this.position] = answer;
        this.position += 1;
        if (this.position % KEEP_EVERY === 0) this.kept.set(this.position, this.set.store());
        return answer;
    }

    // The store as it was when so many messages had been taken.
    goTo(position) {
        const to = Math.max(0, Math.min(position, this.length));
        let from = Math.floor(to / KEEP_EVERY) * KEEP_EVERY;
        while (!this.kept.has(from)) from -= KEEP_EVERY;
        if (!(this.position <= to && this.position >= from)) {
            this.set.load(this.kept.get(from));
            this.position = from;
            this.before = this.kept.get(from);
        }
        while (this.position < to) this.takeNext();
    }

    // Takes messages for at most so many milliseconds, up to a place; whether it is reached.
    runFor(milliseconds, to = this.length) {
        const end = performance.now() + milliseconds;
        while (this.position < to && performance.now() < end) this.takeNext();
        return this.position >= to;
    }

    taken(index) {
        const answer = this.answers[index];
        return answer !== undefined && answer.number === 0;
    }
}

// The last entry, among the messages taken before a position, that put what this key names: {message, setting, entry}, or null.
export function sentBy(series, position, key) {
    const wanted = keyText(key);
    for (let index = position - 1; index >= 0; index--) {
        const found = series.taken(index) ? lastPut(parseMessage(series.records[index].message).settings, wanted) : null;
        if (found) return { message: index, ...found };
    }
    return null;
}

function lastPut(settings, wanted) {
    for (const setting of [...settings].reverse()) {
        const entry = [...setting.entries].reverse().find((each) => each.does === "put" && each.key && keyText(each.key) === wanted);
        if (entry) return { setting, entry };
    }
    return null;
}
