// web/tests/harness_test.mjs: what the harness prints and ends with; by the assertions of node, since a harness that passes everything passes itself.
import { deepStrictEqual } from "node:assert";
import { spawnSync } from "node:child_process";

const harness = new URL("harness.mjs", import.meta.url).href;

// A program of these tests prints this and ends so.
function ends(code, printed, status) {
    const text = `import { after, equal, holds, run, test, throws } from ${JSON.stringify(harness)}; ${code}`;
    const { stdout, status: ended } = spawnSync(process.execPath, ["--input-type=module", "-e", text], { encoding: "utf8", timeout: 20000 });
    deepStrictEqual([stdout, ended], [printed, status]);
}

ends("test('one', () => holds('a', true)); test('two', async () => equal('b', [1, { c: 2n }], [1, { c: 2n }])); await run();",
    "ok  one\nok  two\n", 0);
ends("test('one', () => holds('a', 1)); test('two', () => {}); await run();", "FAILED  one: a: 1, not true\nok  two\n", 1);
ends("test('one', async () => equal('b', [1], [2])); await run();", "FAILED  one: b: [ 1 ], not [ 2 ]\n", 1);
ends("test('one', () => { throw 7; }); await run();", "FAILED  one: 7\n", 1);
ends("await run();", "FAILED  no test is here\n", 1);
ends("after(() => { throw new Error('late'); }); test('one', () => {}); await run();", "ok  one\nFAILED  what comes after the tests: late\n", 1);
ends("test('one', () => throws('x', () => { throw new Error('some words'); }, 'words')); await run();", "ok  one\n", 0);
ends("test('one', () => throws('x', () => 0, 'words')); await run();", "FAILED  one: x: it does not throw\n", 1);
ends("test('one', () => throws('x', async () => { throw new Error('some'); }, 'words')); await run();", "FAILED  one: x: 'some' has no 'words'\n", 1);
ends("test('one', () => {}); test('hangs', () => new Promise(() => {})); await run({ seconds: 0.3 });",
    "ok  one\nFAILED  hangs: not done when the 0.3 seconds of all tests were over\n", 1);
console.log("ok  the harness passes what is right, fails what is wrong, and ends what hangs");
