// web/tests/chromium.mjs: a headless Chromium, driven over two pipes: no port is opened and no package is needed. It ends with the process that
// started it, and its folder is removed. No name is resolved for it, and what its pages ask for is kept in `requests`.
import { spawn } from "node:child_process";
import { accessSync, constants, mkdirSync, mkdtempSync, readFileSync, rmSync } from "node:fs";
import { tmpdir } from "node:os";
import { delimiter, join } from "node:path";
import { Page } from "./chromium_page.mjs";
import { Pipe } from "./chromium_pipe.mjs";

const executable = (path) => {
    try {
        accessSync(path, constants.X_OK);
        return true;
    } catch {
        return false;
    }
};

// Where the environment's CHROMIUM says, a path or a name, or what the PATH has; null where there is none.
export function chromiumPath() {
    const names = process.env.CHROMIUM ? [process.env.CHROMIUM] : ["chromium", "chromium-browser", "google-chrome"];
    const folders = (process.env.PATH ?? "").split(delimiter).filter((folder) => folder !== "");
    const places = names.flatMap((name) => (name.includes("/") ? [name] : folders.map((folder) => join(folder, name))));
    return places.find(executable) ?? null;
}

// The sandbox needs what root and many containers do not have; what is opened are our own pages.
const flags = [
    "--headless", "--no-sandbox", "--remote-debugging-pipe", "--disable-gpu", "--disable-dev-shm-usage", "--hide-scrollbars", "--mute-audio",
    "--no-first-run", "--no-default-browser-check", "--password-store=basic", "--use-mock-keychain", "--disable-breakpad", "--disable-crash-reporter",
    "--disable-background-networking", "--disable-component-update", "--disable-sync", "--disable-default-apps", "--disable-extensions",
    "--disable-domain-reliability", "--disable-client-side-phishing-detection", "--no-pings", "--metrics-recording-only",
    "--disable-features=Translate,OptimizationHints,MediaRouter,InterestFeedContentSuggestions,AutofillServerCommunication",
    "--host-resolver-rules=MAP * ~NOTFOUND",
    // A page that is not in front is not slowed down.
    "--disable-background-timer-throttling", "--disable-backgrounding-occluded-windows", "--disable-renderer-backgrounding",
];

// Those that run: each is ended at once, with the group of its processes, when this process ends in whatever way.
const running = new Set();
let guarded = false;

function guard() {
    if (guarded) return;
    guarded = true;
    process.on("exit", () => running.forEach((browser) => browser.kill()));
    for (const [signal, number] of [["SIGHUP", 1], ["SIGINT", 2], ["SIGTERM", 15]]) process.on(signal, () => process.exit(128 + number));
}

// Starts one: the pages' size, their language, and the milliseconds that each of its answers may take.
export async function launch({ width = 1280, height = 900, language = "en", limit = 60000 } = {}) {
    const path = chromiumPath();
    if (path === null) throw new Error("chromium is not here");
    guard();
    const browser = new Browser(path, { width, height, language, limit });
    try {
        await browser.start();
        return browser;
    } catch (error) {
        browser.kill();
        throw error;
    }
}

class Browser {
    constructor(path, options) {
        this.options = options;
        this.folder = mkdtempSync(join(tmpdir(), "chromium-"));
        this.downloads = [];
        mkdirSync(join(this.folder, "downloads"));
        const { width, height, language } = options;
        const profile = join(this.folder, "profile");
        const own = [`--user-data-dir=${profile}`, `--window-size=${width},${height}`, `--lang=${language}`, `--accept-lang=${language}`];
        // What it would write at home goes with the folder.
        const env = { ...process.env, HOME: this.folder, XDG_CONFIG_HOME: this.folder, XDG_CACHE_HOME: this.folder, LANGUAGE: language };
        this.child = spawn(path, [...flags, ...own, "about:blank"], { stdio: ["ignore", "ignore", "pipe", "pipe", "pipe"], detached: true, env });
        running.add(this);
        this.ended = new Promise((done) => this.child.once("close", done));
        this.pipe = new Pipe(this.child, options.limit);
    }

    get pid() {
        return this.child.pid;
    }

    async start() {
        await this.pipe.send("Browser.getVersion");
        this.pipe.listen(undefined, (method, params) => this.heed(method, params));
        const downloadPath = join(this.folder, "downloads");
        await this.pipe.send("Browser.setDownloadBehavior", { behavior: "allowAndName", downloadPath, eventsEnabled: true });
    }

    heed(method, params) {
        if (method === "Browser.downloadWillBegin") this.downloads.push({ guid: params.guid, name: params.suggestedFilename, state: "inProgress" });
        const download = method === "Browser.downloadProgress" && this.downloads.find(({ guid }) => guid === params.guid);
        if (download) download.state = params.state;
    }

    // The next file that a page saves: its name and its bytes.
    async download(milliseconds = 60000) {
        await this.pipe.until(() => this.downloads.length > 0 && this.downloads[0].state !== "inProgress", milliseconds, "a download");
        const { guid, name, state } = this.downloads.shift();
        if (state !== "completed") throw new Error(`the download of ${name} was ${state}`);
        return { name, bytes: readFileSync(join(this.folder, "downloads", guid)) };
    }

    async newPage() {
        const { targetId } = await this.pipe.send("Target.createTarget", { url: "about:blank" });
        const { sessionId } = await this.pipe.send("Target.attachToTarget", { targetId, flatten: true });
        const page = new Page(this.pipe, sessionId, targetId);
        await page.start(this.options);
        return page;
    }

    // Asks it to end, so that it waits for its own processes, and ends it where it does not.
    async close() {
        const late = new Promise((done) => setTimeout(done, 5000).unref());
        const asked = this.pipe.send("Browser.close").then(() => this.ended, () => {});
        await Promise.race([asked, late]);
        this.kill();
    }

    kill() {
        if (!running.delete(this)) return;
        try {
            if (this.child.pid) process.kill(-this.child.pid, "SIGKILL");
        } catch {
            // It has ended already.
        }
        this.pipe.fail("chromium was closed");
        rmSync(this.folder, { recursive: true, force: true, maxRetries: 10, retryDelay: 50 });
    }
}
