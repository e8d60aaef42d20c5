// Starts the page: the modules out of the page itself, the worker out of the first script's text, and what the link says.
import { loadModules } from "./engine.js";
import { say, getLanguage } from "./say.js";
import { fromFragment } from "./records.js";
import { makeExamples } from "./examples.js";
import { app, useSet, useLanguage, openSeries, goTo } from "./view-app.js";
import { startMessages } from "./view-messages.js";
import { startCompose } from "./view-compose.js";
import { startMessage } from "./view-message.js";
import { startAnswer } from "./view-answer.js";
import { startRadio } from "./view-radio.js";
import { startStore } from "./view-store.js";
import { startDesk } from "./view-desk.js";
import { startOther, useOther } from "./view-other.js";
import { startOffice } from "./view-office.js";
import { byId } from "./view-dom.js";

function dataOf(id) {
    return Uint8Array.from(atob(byId(id).textContent), (character) => character.charCodeAt(0));
}

function makeWorker() {
    const source = `${byId("engine").textContent}\ndeskWorkerMain(self);\n`;
    return new Worker(URL.createObjectURL(new Blob([source], { type: "text/javascript" })));
}

// A link's messages, taken as far as the link says; a damaged link is said.
function openLink() {
    const read = fromFragment(location.hash);
    if (read.none || location.hash.endsWith("-box")) return;
    if (read.fault) return openSeries([], null, say(read.fault));
    useLanguage(read.language);
    useSet(read.kind, read.messages.map((message) => ({ kind: 0, message })));
    goTo(read.position);
}

function startPage() {
    const bytes = Object.fromEntries(["handheld", "vehicle", "office", "desk"].map((name) => [name, dataOf(`module-${name}`)]));
    app.modules = loadModules(bytes);
    useSet("handheld");
    useOther("handheld");
    startMessages(makeExamples(dataOf("records-shift")));
    startCompose();
    startMessage();
    startAnswer();
    startRadio();
    startStore();
    startDesk(makeWorker(), bytes);
    startOther();
    startOffice();
    byId("language").value = getLanguage();
    byId("language").addEventListener("change", (event) => useLanguage(event.target.value));
    addEventListener("hashchange", openLink);
    useLanguage(navigator.language.startsWith("zh") ? "zh" : "en");
    byId("language").value = getLanguage();
    openLink();
    document.body.dataset.ready = "yes";
}

startPage();
