// web/tests/chromium_page.mjs: one page of a Chromium that chromium.mjs started: opened, looked at, and used by mouse and keys as a user does it.
import { writeFileSync } from "node:fs";
import { resolve } from "node:path";
import { startFrames, stopFrames } from "./frames.mjs";
import { keyOf, modifierEvents } from "./keys.mjs";

// What runs in the page: an expression, or a function called with these values, which go there as JSON.
const textOf = (what, values) => (typeof what === "function" ? `(${what})(...${JSON.stringify(values)})` : what);
const wordsOf = ({ exception, text }) => exception?.description ?? (exception && "value" in exception ? `${text} ${exception.value}` : text);

// A value as it comes back: what JSON does not have is spelled out.
function valueOf({ value, unserializableValue }) {
    if (unserializableValue === undefined) return value;
    return unserializableValue.endsWith("n") ? BigInt(unserializableValue.slice(0, -1)) : Number(unserializableValue);
}

// In the page: the middle of the first element of the selector, in view; nothing else may lie there but what is in it, or its label.
function middleOf(selector) {
    const element = document.querySelector(selector);
    if (!element) throw new Error(`no element ${selector}`);
    element.scrollIntoView({ block: "center", inline: "center", behavior: "instant" });
    const { left, top, width, height } = element.getBoundingClientRect();
    if (width === 0 || height === 0) throw new Error(`${selector} has no size`);
    const [x, y] = [left + width / 2, top + height / 2];
    const hit = document.elementFromPoint(x, y);
    if (!hit || !(element.contains(hit) || hit.closest("label")?.control === element)) {
        throw new Error(`${selector} is covered by ${hit ? hit.cloneNode(false).outerHTML : "nothing that can be clicked"}`);
    }
    return { x, y };
}

export class Page {
    constructor(pipe, session, target) {
        this.pipe = pipe;
        this.session = session;
        this.target = target;
        this.requests = [];
        this.errors = [];
        this.dialogs = [];
        this.acceptsDialogs = true;
        this.loaded = new Set();
    }

    send(method, params) {
        return this.pipe.send(method, params, this.session);
    }

    async start({ width, height }) {
        await this.watch(this.session);
        await this.send("Page.enable");
        await this.send("Inspector.enable");
        await this.send("Page.setLifecycleEventsEnabled", { enabled: true });
        await this.send("Emulation.setFocusEmulationEnabled", { enabled: true });
        await this.resize(width, height);
    }

    // Of the page, of its frames and of its workers, each from its first request on: what it asks for, and what goes wrong.
    async watch(session) {
        this.pipe.listen(session, (method, params) => this.heed(session, method, params));
        const ask = (method, params) => this.pipe.send(method, params, session).catch(() => {});
        await Promise.all([
            ...["Network.enable", "Runtime.enable", "Log.enable"].map((method) => ask(method)),
            ask("Target.setAutoAttach", { autoAttach: true, waitForDebuggerOnStart: true, flatten: true }),
        ]);
        await ask("Runtime.runIfWaitingForDebugger");
    }

    heed(session, method, params) {
        const request = (url, type, how = "GET") => this.requests.push({ url, type, method: how });
        const on = {
            "Network.requestWillBeSent": () => request(params.request.url, params.type, params.request.method),
            "Network.webSocketCreated": () => request(params.url, "WebSocket"),
            "Network.webTransportCreated": () => request(params.url, "WebTransport"),
            "Runtime.exceptionThrown": () => this.errors.push(wordsOf(params.exceptionDetails)),
            "Runtime.consoleAPICalled": () => this.heedConsole(params),
            "Log.entryAdded": () => params.entry.level === "error" && this.errors.push(`${params.entry.text} ${params.entry.url ?? ""}`.trim()),
            "Inspector.targetCrashed": () => this.heedCrash(),
            "Page.lifecycleEvent": () => params.name === "load" && this.loaded.add(params.loaderId),
            "Page.javascriptDialogOpening": () => this.heedDialog(params),
            "Target.attachedToTarget": () => this.watch(params.sessionId),
        };
        on[method]?.();
    }

    heedConsole({ type, args }) {
        if (type !== "error" && type !== "assert") return;
        this.errors.push(`console.${type}: ${args.map((arg) => arg.description ?? String(valueOf(arg))).join(" ")}`);
    }

    // It answers no more: neither what was asked, nor what will be.
    heedCrash() {
        this.errors.push("the page crashed");
        this.pipe.fail("the page crashed");
    }

    // A question that nobody answers would stop the page.
    heedDialog({ type, message }) {
        this.dialogs.push({ type, message });
        this.send("Page.handleJavaScriptDialog", { accept: this.acceptsDialogs }).catch(() => {});
    }

    // Opens it, and waits until it is loaded. Where only what stands behind # is another, the page stays, as it does for a user.
    async open(url) {
        const { errorText, loaderId } = await this.send("Page.navigate", { url });
        if (errorText) throw new Error(`${url}: ${errorText}`);
        if (loaderId) await this.pipe.until(() => this.loaded.has(loaderId), this.pipe.limit, `${url} is loaded`);
    }

    // The addresses it asked for that are neither in a file nor in the page itself.
    outside() {
        return this.requests.map(({ url }) => url).filter((url) => !/^(file|blob|data):/.test(url));
    }

    // What the expression, or the function of these values, comes to, by value; promises are awaited, and what the page throws is thrown.
    async evaluate(what, ...values) {
        const { result, exceptionDetails } = await this.send("Runtime.evaluate", {
            expression: textOf(what, values), returnByValue: true, awaitPromise: true,
        });
        if (exceptionDetails) throw new Error(wordsOf(exceptionDetails));
        return valueOf(result);
    }

    // Until the expression, or the function of these values, comes to something true; what it throws until then counts as not yet.
    // The limit ends what never comes; it judges no speed, since a machine may be busy.
    async waitFor(what, milliseconds = 60000, ...values) {
        let why = "";
        const asked = () => this.evaluate(what, ...values).catch((error) => {
            why = `, ${error.message}`;
            return false;
        });
        return this.pipe.until(asked, milliseconds, () => `${what}${why}`);
    }

    async click(selector, { count = 1, modifiers = [] } = {}) {
        const place = await this.evaluate(middleOf, selector);
        const held = modifierEvents(modifiers).at(-1)?.modifiers ?? 0;
        const mouse = (type, more) => this.send("Input.dispatchMouseEvent", { type, ...place, modifiers: held, ...more });
        await mouse("mouseMoved");
        for (let clickCount = 1; clickCount <= count; clickCount += 1) {
            await mouse("mousePressed", { button: "left", buttons: 1, clickCount });
            await mouse("mouseReleased", { button: "left", clickCount });
        }
    }

    // Presses a key and lets it go, while these are held: "Shift", "Control", "Alt", "Meta", one or a list.
    async key(name, modifiers = []) {
        const key = keyOf(name);
        if (!key) throw new Error(`no key ${name}`);
        const { shift, ...event } = key;
        const names = [...new Set([...[modifiers].flat(), ...(shift ? ["Shift"] : [])])];
        const held = modifierEvents(names);
        const bits = held.at(-1)?.modifiers ?? 0;
        // With Control, Alt or Meta nothing is typed.
        const text = (bits & 7) === 0 ? event.text : "";
        const down = [...held, { ...event, text, unmodifiedText: text, modifiers: bits }];
        const up = down.map((each, index) => ({ ...each, text: "", unmodifiedText: "", modifiers: down[index - 1]?.modifiers ?? 0, type: "keyUp" }));
        const events = [...down.map((each) => ({ ...each, type: each.text ? "keyDown" : "rawKeyDown" })), ...up.reverse()];
        for (const each of events) await this.send("Input.dispatchKeyEvent", each);
    }

    // By keys where the keyboard has them; what it has not comes as from an input method.
    async type(text) {
        for (const character of text) {
            if (character === "\n") await this.key("Enter");
            else if (keyOf(character)) await this.key(character);
            else await this.send("Input.insertText", { text: character });
        }
    }

    // Chooses a file, or a list of them, as the dialogue of an input element does.
    async setFile(selector, paths) {
        const { result } = await this.send("Runtime.evaluate", { expression: `document.querySelector(${JSON.stringify(selector)})` });
        if (!result.objectId) throw new Error(`no element ${selector}`);
        await this.send("DOM.setFileInputFiles", { files: [paths].flat().map((path) => resolve(path)), objectId: result.objectId });
    }

    // A PNG of what is in view, or of the full page.
    async screenshot(path, { full = false } = {}) {
        const { cssContentSize } = await this.send("Page.getLayoutMetrics");
        const clip = { ...cssContentSize, scale: 1 };
        const { data } = await this.send("Page.captureScreenshot", { format: "png", ...(full ? { captureBeyondViewport: true, clip } : {}) });
        writeFileSync(path, Buffer.from(data, "base64"));
    }

    // A mobile page has fingers, and heeds its viewport's meta element.
    async resize(width, height, mobile = false) {
        await this.send("Emulation.setDeviceMetricsOverride", { width, height, deviceScaleFactor: 1, mobile });
        await this.send("Emulation.setTouchEmulationEnabled", { enabled: mobile });
    }

    // As a user's settings say it; what is not given, or is empty, is as it was at first.
    async emulateMedia({ colors = "", scheme = "", motion = "" } = {}) {
        const features = [
            { name: "forced-colors", value: colors === "forced" ? "active" : colors },
            { name: "prefers-color-scheme", value: scheme },
            { name: "prefers-reduced-motion", value: motion },
        ];
        await this.send("Emulation.setEmulatedMedia", { features });
    }

    // While the function runs: how many frames the page had, the longest gap from one to the next in milliseconds, those over 50, and the long tasks.
    async frames(fn) {
        await this.send("Page.bringToFront");
        await this.evaluate(startFrames);
        await fn();
        return this.evaluate(stopFrames);
    }

    // What a screen reader is told, in the page's order: the role and the name of each, and what more there is of it.
    async accessibility() {
        const { nodes } = await this.send("Accessibility.getFullAXTree");
        return nodes.filter(({ ignored }) => !ignored).map(({ role, name, value, description, properties = [] }) => ({
            role: role?.value ?? "", name: name?.value ?? "", value: value?.value ?? "", description: description?.value ?? "",
            states: Object.fromEntries(properties.map((property) => [property.name, property.value.value])),
        }));
    }

    async close() {
        await this.pipe.send("Target.closeTarget", { targetId: this.target });
    }
}
