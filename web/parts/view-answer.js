// The answer to the chosen message: the number in words, what the set does then, and the reply's bytes with their fields.
import { say } from "./say.js";
import { parseReply } from "./wire.js";
import { app, addView, chosenMessage, chosenAnswer, lookFirst, takeChosen } from "./view-app.js";
import { fieldLine } from "./view-message.js";
import { el, byId, fill, button, hexByte } from "./view-dom.js";

function replyFields(reply) {
    const parsed = parseReply(reply);
    return el("table", {}, el("caption", {}, say("page.replyFields")),
        el("thead", {}, el("tr", {}, el("th", { scope: "col" }, say("page.bytesHead")), el("th", { scope: "col" }, say("page.meaning")))),
        el("tbody", {}, [...parsed.carrier, ...parsed.head].map((field) => el("tr", {},
            el("td", { class: "mono" }, Array.from(reply.subarray(field.from, field.to), hexByte).join(" ")), el("td", {}, fieldLine(field))))));
}

function answerLines(answer, judged) {
    const lines = [
        [say("page.number"), `${answer.number}: ${say(`number.${answer.number}`)}`],
        [say("page.failed"), answer.failed ? say("page.failedIs", { failed: answer.failed }) : say("page.failedNone")],
        [say("page.reply"), answer.length === 0 ? say("page.noReply") : say(answer.send ? "page.send" : "page.keep")],
        [say("page.restart"), say(answer.reboot ? "page.restarts" : "page.restartsNot")],
    ];
    return el("dl", { class: judged ? "judged" : "" }, lines.flatMap(([name, value]) => [el("dt", {}, name), el("dd", {}, value)]));
}

export function startAnswer() {
    addView(() => {
        if (app.running) return;
        const message = chosenMessage();
        const asked = chosenAnswer();
        const isNext = app.chosen === app.series.position;
        fill(byId("answer"),
            el("div", { class: "row" },
                button("page.look", lookFirst, { disabled: !message }),
                button(isNext ? "page.take" : "page.goBefore", takeChosen, { disabled: !message, class: "main", "data-key": "take" })),
            !asked && el("p", {}, say("page.notAsked")),
            asked && el("p", {}, say(asked.judged ? "page.judgedOnly" : "page.committed")),
            asked && answerLines(asked.answer, asked.judged),
            asked && asked.answer.length > 0 && replyFields(asked.answer.reply));
    });
}
