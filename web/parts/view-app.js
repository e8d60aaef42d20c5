// The page's state, and what its controls do to it. Each view draws its part of it when it has changed.
import { say, setLanguage, getLanguage } from "./say.js";
import { RadioSet } from "./engine.js";
import { Series } from "./series.js";
import { announce, nextFrame, byId } from "./view-dom.js";

// A frame has 16 ms: a run takes messages for half of that, and the rest is for drawing.
const RUN_SLICE = 8;

export const app = {
    modules: null, kind: "handheld", set: null, series: null,
    chosen: 0, look: null, story: null, fault: null, running: null,
    other: null, otherSaid: null,
};
const drawers = [];
const followers = [];

// A view is drawn whenever something has changed; a follower is told before that, as the plain engine is.
export function addView(draw) {
    drawers.push(draw);
}

export function addFollower(follow) {
    followers.push(follow);
}

export function refresh() {
    for (const follow of followers) follow();
    for (const draw of drawers) draw();
}

// Another kind of set, or the same anew: the series is its own from the start.
export function useSet(kind, records = []) {
    stopRun();
    app.kind = kind;
    app.set = new RadioSet(app.modules, kind);
    app.series = new Series(app.set);
    openSeries(records, null);
}

export function openSeries(records, story, fault = null) {
    stopRun();
    app.series.open(records);
    app.chosen = 0;
    app.look = null;
    app.story = story;
    app.fault = fault;
    announce(fault ?? say("page.opened", { count: records.length }));
    refresh();
}

export function choose(index) {
    app.chosen = Math.max(0, Math.min(index, app.series.length - 1));
    app.look = null;
    refresh();
}

export function chosenMessage() {
    return app.series.records[app.chosen]?.message ?? null;
}

// The answer to the chosen message: what was judged, or what taking it came to; null where neither was asked.
export function chosenAnswer() {
    if (app.look) return { answer: app.look, judged: true };
    const answer = app.chosen < app.series.position ? app.series.answers[app.chosen] : undefined;
    return answer ? { answer, judged: false } : null;
}

export function lookFirst() {
    const message = chosenMessage();
    if (!message) return;
    app.look = app.set.judge(message);
    announce(say("page.judged", { number: app.look.number, words: say(`number.${app.look.number}`) }));
    refresh();
}

function tellTaken(answer) {
    announce(say("page.took", { message: app.series.position, number: answer.number, words: say(`number.${answer.number}`) }));
}

export function takeChosen() {
    if (app.chosen !== app.series.position) return goTo(app.chosen);
    app.look = null;
    const answer = app.series.takeNext();
    if (answer) tellTaken(answer);
    refresh();
}

export function takeNext() {
    stopRun();
    app.look = null;
    const answer = app.series.takeNext();
    if (!answer) return;
    app.chosen = app.series.position - 1;
    tellTaken(answer);
    refresh();
}

export function goTo(position) {
    stopRun();
    app.look = null;
    app.series.goTo(position);
    app.chosen = Math.max(0, Math.min(position, app.series.length - 1));
    announce(say("page.at", { position: app.series.position, count: app.series.length }));
    refresh();
}

export function addNext(message) {
    stopRun();
    app.series.insertNext(message);
    app.chosen = app.series.position;
    app.look = null;
    app.fault = null;
    announce(say("page.added", { position: app.chosen + 1 }));
    refresh();
}

// Takes all messages, some in each frame; the page is drawn when it has ended, and the progress in between.
export async function runAll() {
    if (app.running) return;
    const run = {};
    app.running = run;
    app.look = null;
    refresh();
    while (!app.series.runFor(RUN_SLICE)) {
        drawProgress();
        await nextFrame();
        if (app.running !== run) return;
    }
    endRun("page.ran");
}

// The user's stop; another step ends a run too, and says what it did itself.
export function endRun(key = "page.stopped") {
    stopRun();
    app.chosen = Math.max(0, app.series.position - 1);
    announce(say(key, { position: app.series.position, count: app.series.length }));
    refresh();
}

export function stopRun() {
    app.running = null;
}

export function drawProgress() {
    const bar = byId("progress");
    bar.max = Math.max(1, app.series.length);
    bar.value = app.series.position;
    byId("progress-text").textContent = say("page.progress", { position: app.series.position, count: app.series.length });
}

export function useLanguage(language) {
    setLanguage(language);
    document.documentElement.lang = getLanguage() === "zh" ? "zh-Hans" : "en";
    document.title = say("page.title");
    for (const node of document.querySelectorAll("[data-say]")) node.textContent = say(node.dataset.say);
    for (const node of document.querySelectorAll("[data-say-label]")) node.setAttribute("aria-label", say(node.dataset.sayLabel));
    dispatchEvent(new Event("languagechanged"));
    refresh();
}
