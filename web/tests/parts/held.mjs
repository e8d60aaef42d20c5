// What a test holds: a line for each, and how many differ.
import { isDeepStrictEqual, inspect } from "node:util";

const counts = { held: 0, differ: 0 };

// Runs a check, which throws where something differs.
export function held(what, check) {
    try {
        const said = check();
        counts.held++;
        console.log(`held: ${what}${said === undefined ? "" : ` (${said})`}`);
    } catch (error) {
        counts.differ++;
        console.log(`DIFFERS: ${what}: ${error.stack}`);
    }
}

export function same(what, is, must) {
    if (isDeepStrictEqual(is, must)) return;
    const shown = (value) => inspect(value, { depth: 8, maxArrayLength: 40, breakLength: 150 });
    throw new Error(`${what} is ${shown(is)}, must be ${shown(must)}`);
}

export function must(what, condition) {
    if (!condition) throw new Error(what);
}

// The Error that a call throws; none is a difference.
export function thrown(call) {
    try {
        call();
    } catch (error) {
        return error;
    }
    throw new Error("nothing was thrown");
}

// Prints the sum and ends with 1 on a difference.
export function finish() {
    console.log(`${counts.held} held, ${counts.differ} differ`);
    process.exitCode = counts.differ === 0 ? 0 : 1;
}
