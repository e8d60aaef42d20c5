// The other set: what one set exports, the other takes.
import { say } from "./say.js";
import { RadioSet } from "./engine.js";
import { parseMessage } from "./wire.js";
import { app, addView, refresh, addNext, chosenMessage } from "./view-app.js";
import { el, byId, fill, button, choice, announce, hexBytes } from "./view-dom.js";

const PARTS = 10;

export function useOther(kind) {
    app.other = new RadioSet(app.modules, kind);
    app.other.start();
    app.otherSaid = null;
}

function tell(lines) {
    app.otherSaid = lines;
    announce(lines[0]);
    refresh();
}

function otherTakes(messages) {
    const refused = messages.map((message) => app.other.commit(message)).filter((answer) => answer.number !== 0);
    const same = `number.${refused[0]?.number}`;
    tell([refused.length === 0 ? say("page.otherTook", { count: messages.length }) :
        say("page.otherRefused", { count: refused.length, all: messages.length, number: refused[0].number, words: say(same) })]);
}

// The ten parts in order, up to the first that the other set does not take.
function handOver(from, to) {
    const lines = [];
    for (let part = 1; part <= PARTS; part++) {
        const { bytes } = from.exportPart(part);
        const answer = to.commit(bytes);
        lines.push(say(answer.number === 0 ? "page.partTaken" : "page.partRefused", {
            part, what: say(`part.${part}`), bytes: bytes.length, number: answer.number, failed: answer.failed, words: say(`number.${answer.number}`),
        }));
        if (answer.number !== 0) return [say("page.exportStopped", { part }), ...lines];
    }
    const same = Array.from({ length: PARTS }, (_, each) => hexBytes(from.exportPart(each + 1).bytes) === hexBytes(to.exportPart(each + 1).bytes));
    return [say(same.every(Boolean) ? "page.exportSame" : "page.exportOther"), ...lines];
}

// An export of the other set goes into the series as ten messages, so that each can be looked at.
function exportToSeries() {
    for (let part = PARTS; part >= 1; part--) addNext(app.other.exportPart(part).bytes);
    tell([say("page.exportAdded", { count: PARTS })]);
}

function takenSoFar() {
    return app.series.records.slice(0, app.series.position).map((record) => record.message);
}

function controls() {
    return [
        el("div", { class: "row" },
            choice("page.otherKind", [["handheld", say("set.handheld")], ["vehicle", say("set.vehicle")]], app.other.kind, (kind) => {
                useOther(kind);
                refresh();
            }),
            button("page.otherStart", () => {
                useOther(app.other.kind);
                tell([say("page.otherFresh")]);
            })),
        el("div", { class: "row" },
            button("page.otherChosen", () => otherTakes([chosenMessage()]), { disabled: !chosenMessage() }),
            button("page.otherAll", () => otherTakes(takenSoFar()), { disabled: app.series.position === 0 }),
            button("page.exportTo", () => tell(handOver(app.set, app.other))),
            button("page.exportFrom", exportToSeries)),
    ];
}

export function countsText(set) {
    const counts = set.counts();
    return say("page.room", {
        lines: counts.lines, allLines: set.lines, freeLines: counts.freeLines,
        channels: counts.channels, allChannels: set.channels, freeChannels: counts.freeChannels,
    });
}

export function requestInWords(bytes, settingInWords) {
    return el("ol", { class: "settings" }, parseMessage(bytes).settings.map((setting) => el("li", {}, settingInWords(setting))));
}

export function startOther() {
    addView(() => {
        if (app.running) return;
        fill(byId("other"), controls(), el("p", {}, countsText(app.other)),
            app.otherSaid && el("div", { role: "status" }, el("p", {}, el("strong", {}, app.otherSaid[0])),
                app.otherSaid.length > 1 && el("ol", { class: "parts" }, app.otherSaid.slice(1).map((line) => el("li", {}, line)))));
    });
}
