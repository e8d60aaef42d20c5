// The examples come to the answers that their stories tell.
import { readFileSync } from "node:fs";
import { makeExamples } from "../../parts/examples.js";
import { parseMessage } from "../../parts/wire.js";
import { hasWords } from "../../parts/say.js";
import { held, same, must } from "./held.mjs";

const answers = {
    shift: [[0, 0], [0, 0], [4, 3], [0, 0], [0, 0], [14, 0]],
    rename: [[0, 0], [0, 0]],
    full: [[0, 0], [2, 2], [0, 0], [0, 0]],
    ninth: [[4, 9], [0, 0]],
    vehicle: [[0, 0], [0, 0]],
};

const textOf = (row) => (row === null ? null : new TextDecoder("utf-16be").decode(row));

function examplesOf(root) {
    return makeExamples(new Uint8Array(readFileSync(`${root}/crates/shift/stdin`)));
}

function haveWords(root) {
    for (const example of examplesOf(root)) {
        const keys = [`example.${example.key}.title`, `example.${example.key}.story`, ...example.steps.map((step) => step.note)];
        same(`words of ${example.key}`, keys.filter((key) => !hasWords(key)), []);
        must(`steps of ${example.key}`, example.steps.every((step) => step.at >= 1 && step.at <= example.messages.length));
        must(`messages of ${example.key}`, example.messages.every((message) => parseMessage(message).whole));
    }
    same("the examples", examplesOf(root).map(({ key }) => key), Object.keys(answers));
}

function comeTo(root, sets) {
    for (const { key, setKind, messages } of examplesOf(root)) {
        sets[setKind].start();
        same(`answers of ${key}`, messages.map((message) => sets[setKind].take(message)).map(({ number, failed }) => [number, failed]), answers[key]);
    }
}

// Row 1 of the group contacts before and after, as the notes say.
function renames(root, set) {
    const { messages, steps } = examplesOf(root)[1];
    set.start();
    const rows = messages.map((message) => {
        set.take(message);
        return [0, 1, 2, 3].map((row) => textOf(set.row(6, row)));
    });
    same("the list", rows, [["巡逻一组", "巡逻二组", "巡逻三组", "交警中队"], ["城南巡逻", "城东增援", "城西巡逻", "交警中队"]]);
    same("what is pressed", steps.map(({ action }) => action && action.kind), ["draw", undefined, "ptt"]);
}

function ninthChangesNothing(root, set) {
    set.start();
    const before = set.memory.slice(set.at.store, set.at.store + 24576);
    set.take(examplesOf(root)[3].messages[0]);
    must("the store is as it was", Buffer.compare(before, set.memory.slice(set.at.store, set.at.store + 24576)) === 0);
}

// The parts of the vehicle's export, taken by a fresh hand-held up to the first that is refused.
function handOn(vehicle, handheld) {
    handheld.start();
    for (let part = 1; part <= 10; part++) {
        const { number, failed } = handheld.take(vehicle.exported(part));
        if (number !== 0) return [part, number, failed];
    }
    return "all";
}

function vehicleExports(root, { vehicle, handheld }) {
    vehicle.start();
    const exported = examplesOf(root)[4].messages.map((message) => {
        vehicle.take(message);
        return handOn(vehicle, handheld);
    });
    same("the exports", exported, ["all", [1, 2, 34]]);
}

export function exampleChecks(root, sets) {
    held("the examples have words and whole messages", () => haveWords(root));
    if (!sets.handheld) return;
    held("the examples come to the answers of their stories", () => comeTo(root, sets));
    held("the group list is renamed and reordered", () => renames(root, sets.handheld));
    held("the ninth at fault leaves the store", () => ninthChangesNothing(root, sets.handheld));
    held("the vehicle's first export fits, and its second does not", () => vehicleExports(root, sets));
}
