// The parts that touch no page: messages as bytes and as structure, record files, links, examples and words, in node.
// Run as: node web/tests/parts.mjs [--rounds N] [--no-modules]; it prints a line for each thing held, and ends with 1 on a difference.
// The library's modules are those of target/archive/wasm32; --no-modules leaves out what asks them.
import { fileURLToPath } from "node:url";
import { finish } from "./parts/held.mjs";
import { LibrarySet } from "./parts/library.mjs";
import { wireChecks } from "./parts/wire.mjs";
import { composeChecks } from "./parts/compose.mjs";
import { recordChecks } from "./parts/records.mjs";
import { wordChecks } from "./parts/words.mjs";
import { exampleChecks } from "./parts/examples.mjs";

const root = fileURLToPath(new URL("../..", import.meta.url));
const given = process.argv.slice(2);
const rounds = given.includes("--rounds") ? Number(given[given.indexOf("--rounds") + 1]) : 100000;
const modules = process.env.OTAP_MODULES || `${root}/target/archive/wasm32`;
const setOf = (kind) => (given.includes("--no-modules") ? null : new LibrarySet(modules, kind));
const sets = { handheld: setOf("handheld"), vehicle: setOf("vehicle") };

wordChecks(root);
recordChecks(root);
composeChecks(root, rounds);
exampleChecks(root, sets);
wireChecks(root, rounds, sets.handheld);
finish();
