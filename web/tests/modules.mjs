// modules.mjs: the four modules, compiled: as ./archive wrote them, or out of the built page.
import { readFileSync } from "node:fs";
import { fileURLToPath } from "node:url";
import { loadModules } from "../parts/engine.js";

const NAMES = ["handheld", "vehicle", "office", "desk"];
const ROOT = fileURLToPath(new URL("../..", import.meta.url));

// The bytes of each module of a page: a script of base64 with the id module-NAME.
function bytesOfPage(page) {
    const text = readFileSync(page, "utf8");
    return Object.fromEntries(NAMES.map((name) => {
        const found = text.match(new RegExp(`<script type="application/octet-stream;base64" id="module-${name}">([^<]*)</script>`));
        if (!found) throw new Error(`${page} has no module ${name}`);
        return [name, new Uint8Array(Buffer.from(found[1], "base64"))];
    }));
}

export function moduleBytes(page) {
    const built = (name) => new Uint8Array(readFileSync(`${ROOT}/target/archive/wasm32/otap_${name}.wasm`));
    return page ? bytesOfPage(page) : Object.fromEntries(NAMES.map((name) => [name, built(name)]));
}

export function modulesOf(page) {
    return loadModules(moduleBytes(page));
}
