// web/tests/harness.mjs: named tests, one after the other, a line for each; the whole ends with 1 if one fails, or if they take too long.
import { inspect, isDeepStrictEqual } from "node:util";

const tests = [];
const endings = [];

// test NAME FN: kept for `run`, in this order.
export function test(name, fn) {
    tests.push({ name, fn });
}

// What is to be done when all tests ran, as closing a browser; a test that hangs leaves it out.
export function after(fn) {
    endings.push({ name: "what comes after the tests", fn });
}

export function holds(what, bool) {
    if (bool !== true) throw new Error(`${what}: ${inspect(bool)}, not true`);
}

export function equal(what, got, wanted) {
    if (isDeepStrictEqual(got, wanted)) return;
    const shown = (value) => inspect(value, { depth: 6, breakLength: Infinity, maxArrayLength: 40, maxStringLength: 400 });
    throw new Error(`${what}: ${shown(got)}, not ${shown(wanted)}`);
}

// The function throws, or its promise is rejected, and the message has these words.
export async function throws(what, fn, words) {
    let why = null;
    try {
        await fn();
    } catch (error) {
        why = String(error.message);
    }
    if (why === null) throw new Error(`${what}: it does not throw`);
    if (!why.includes(words)) throw new Error(`${what}: ${inspect(why)} has no ${inspect(words)}`);
}

async function passes({ name, fn }) {
    try {
        await fn();
        return true;
    } catch (error) {
        console.log(`FAILED  ${name}: ${error instanceof Error ? error.message : inspect(error)}`);
        return false;
    }
}

// Runs what was given to `test`, then to `after`, and ends the process: with 1 if one failed, if there is none, or after so many seconds.
export async function run({ seconds = 300 } = {}) {
    let current = "nothing";
    const limit = setTimeout(() => {
        console.log(`FAILED  ${current}: not done when the ${seconds} seconds of all tests were over`);
        process.exit(1);
    }, seconds * 1000);
    let failed = tests.length === 0 ? 1 : 0;
    if (failed) console.log("FAILED  no test is here");
    for (const entry of [...tests, ...endings]) {
        current = entry.name;
        const passed = await passes(entry);
        if (!passed) failed += 1;
        else if (tests.includes(entry)) console.log(`ok  ${entry.name}`);
    }
    clearTimeout(limit);
    process.exit(failed ? 1 : 0);
}
