// web/tests/chromium_pipe.mjs: commands to Chromium over the descriptors 3 and 4 of its process, each as JSON and a zero byte, and what comes back.
export class Pipe {
    constructor(child, limit) {
        this.limit = limit;
        this.asked = new Map();
        this.listeners = new Map();
        this.last = 0;
        this.rest = "";
        this.ended = null;
        this.said = "";
        [, , , this.input, this.output] = child.stdio;
        this.input.on("error", () => {}); // It has ended, as is told below.
        this.output.setEncoding("utf8").on("data", (text) => this.take(text));
        child.stderr.setEncoding("utf8").on("data", (text) => (this.said = (this.said + text).slice(-2000)));
        child.once("error", (error) => this.fail(`chromium does not start: ${error.message}`));
        child.once("close", (code, signal) => this.fail(`chromium ended with ${signal ?? code}, and said: ${this.said}`));
    }

    // Every command that has no answer yet is given up.
    fail(why) {
        this.ended ??= why;
        for (const { reject } of this.asked.values()) reject(new Error(this.ended));
        this.asked.clear();
    }

    take(text) {
        const pieces = text.split("\0");
        pieces[0] = this.rest + pieces[0];
        this.rest = pieces.pop();
        for (const piece of pieces) this.heed(JSON.parse(piece));
    }

    heed({ id, method, params, sessionId, result, error }) {
        if (id === undefined) return this.listeners.get(sessionId)?.(method, params);
        const command = this.asked.get(id);
        this.asked.delete(id);
        if (error) command?.reject(new Error(`${command.method}: ${error.message}${error.data ? `, ${error.data}` : ""}`));
        else command?.resolve(result);
    }

    // What comes of this session goes to this function; without a session it is the browser's own.
    listen(sessionId, fn) {
        this.listeners.set(sessionId, fn);
    }

    send(method, params = {}, sessionId = undefined) {
        if (this.ended) return Promise.reject(new Error(this.ended));
        const id = (this.last += 1);
        return new Promise((resolve, reject) => {
            const late = () => this.asked.delete(id) && reject(new Error(`${method}: no answer in ${this.limit} ms`));
            const timer = setTimeout(late, this.limit);
            const then = (fn) => (value) => {
                clearTimeout(timer);
                fn(value);
            };
            this.asked.set(id, { method, resolve: then(resolve), reject: then(reject) });
            this.input.write(`${JSON.stringify({ id, method, params, sessionId })}\0`);
        });
    }

    // Waits until the function comes to something true, and asks it all the while; it may be asynchronous.
    async until(fn, milliseconds, what) {
        const end = performance.now() + milliseconds;
        for (;;) {
            const value = await fn();
            if (value) return value;
            if (this.ended) throw new Error(this.ended);
            if (performance.now() > end) throw new Error(`not within ${milliseconds} ms: ${typeof what === "function" ? what() : what}`);
            await new Promise((done) => setTimeout(done, 10));
        }
    }
}
