// The library's modules, as far as the tests of the parts ask them: a set with its store, which takes messages, shows rows and exports.
import { readFileSync } from "node:fs";

const sizes = { handheld: { store: 24576, buffer: 4096, prefix: "otap_" }, vehicle: { store: 49152, buffer: 8192, prefix: "otap_vehicle_" } };

export class LibrarySet {
    constructor(directory, kind) {
        this.own = sizes[kind];
        this.exports = new WebAssembly.Instance(new WebAssembly.Module(readFileSync(`${directory}/otap_${kind}.wasm`))).exports;
        const start = this.exports.__heap_base.value;
        this.at = { store: start, message: start + this.own.store, reply: start + this.own.store + 65536 };
        this.at.scratch = this.at.reply + 20;
        this.at.buffer = this.at.scratch + 40;
        const pages = Math.ceil((this.at.buffer + this.own.buffer - this.exports.memory.buffer.byteLength) / 65536);
        this.exports.memory.grow(Math.max(0, pages));
        this.memory = new Uint8Array(this.exports.memory.buffer);
        this.start();
    }

    call(name, ...words) {
        return this.exports[this.own.prefix + name](...words);
    }

    store() {
        return [this.at.store, BigInt(this.own.store)];
    }

    start() {
        this.call("start", ...this.store());
    }

    // Commits: {number, failed, reply}.
    take(message) {
        this.memory.set(message, this.at.message);
        const answer = Number(this.call("commit", this.at.message, BigInt(message.length), ...this.store(), this.at.reply, 20n));
        const length = Math.floor(answer / 2 ** 24) & 255;
        return { number: answer & 255, failed: (answer >> 8) & 255, reply: this.memory.slice(this.at.reply, this.at.reply + length) };
    }

    // The bytes that a row shows, or null where the row is absent.
    row(table, index) {
        const scratch = [this.at.scratch, 36n];
        if (this.call("row_number", table, index, ...this.store(), ...scratch) !== 0) return null;
        const part = this.call("row_part", table, index, ...this.store(), ...scratch);
        const from = (part & 1n ? this.at.scratch : this.at.store) + Number((part >> 16n) & 0xffffn);
        return this.memory.slice(from, from + Number((part >> 32n) & 0xffffn));
    }

    exported(part) {
        const answer = this.call("export", part, ...this.store(), this.at.buffer, BigInt(this.own.buffer));
        return this.memory.slice(this.at.buffer, this.at.buffer + Number((answer >> 16n) & 0xffffn));
    }

    // The message of a report to a query.
    report(query, index) {
        this.memory.set(query, this.at.message);
        const answer = this.call("report", this.at.message, BigInt(query.length), index, ...this.store(), this.at.buffer, BigInt(this.own.buffer));
        const length = Number((answer >> 16n) & 0xffffn);
        return { number: Number(answer & 255n), total: Number((answer >> 8n) & 255n), bytes: this.memory.slice(this.at.buffer, this.at.buffer + length) };
    }
}
