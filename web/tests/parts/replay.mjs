// The eight tables of texts as the entries of parsed settings make them, by key, and the library's rows beside them.
import { keyText } from "../../parts/wire.js";
import { same, must } from "./held.mjs";

// One entry in its table: a quick text that is there stays, all else is overwritten in its place.
function put(table, number, entry, setting) {
    const key = keyText(entry.key);
    if (entry.does === "delete") table.delete(key);
    if (entry.does === "put" && !(number === 2 && table.has(key))) table.set(key, { entry, setting });
}

// Tables 1 to 8, each a Map of keys in the order of its rows.
export function tablesOf(messages) {
    const tables = Array.from({ length: 9 }, () => new Map());
    for (const setting of messages.flatMap((message) => message.settings)) {
        if (setting.table === null) continue;
        if (setting.clears) tables[setting.table].clear();
        setting.entries.forEach((entry) => put(tables[setting.table], setting.table, entry, setting));
    }
    return tables;
}

const bytesOf = (units) => Uint8Array.from(units.flatMap((unit) => [unit >> 8, unit & 255]));

// A background group has no row; a text that is empty is shown as a number, but a status text.
function rowIs(set, table, index, { entry, setting }) {
    const row = set.row(table, index);
    if (setting.values.attribute === 1) return same("a background group's row", row, null);
    if (entry.units.length > 0 || table === 3) return same(`row ${index} of table ${table}`, row, bytesOf(entry.units));
    return must(`row ${index} of table ${table} is a number`, row !== null && row.length > 0);
}

// The rows of lists go by position, the others by index or code.
export function rowsAre(set, tables) {
    tables.forEach((table, number) => {
        const rows = [...table.values()];
        const isList = [1, 6, 7].includes(number);
        rows.forEach((each, at) => rowIs(set, number, isList ? at : Object.values(each.entry.key)[1], each));
        if (isList) same(`the row behind table ${number}`, set.row(number, rows.length), null);
    });
}
