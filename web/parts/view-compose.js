// Small forms that make a message: each gives a setting, and settings are gathered until one request is made of them.
import { say } from "./say.js";
import { nameGroup, nameIndividual, addLine, setChannels, quickText, statusText, lastItem, composeRequest, writeSetting } from "./compose.js";
import { codingEight, codingUnicode } from "./layouts.js";
import { parseMessage } from "./wire.js";
import { settingInWords } from "./wire-words.js";
import { addNext } from "./view-app.js";
import { el, byId, fill, button, labelled, announce } from "./view-dom.js";

const draft = { form: "group", coding: codingUnicode, settings: [], values: {} };
const numbers = (text) => text.split(/[\s,]+/).filter(Boolean).map(Number);
const slotOf = (values) => (values.where === "slot" ? Number(values.slot) : undefined);
const calledBy = (values) => ({ slot: slotOf(values), address: parseInt(values.address, 16), priority: Number(values.priority) });
const OPERATIONS = [["add", "op.add"], ["replace", "op.replace"], ["delete", "op.delete"]];
const PLACES = [["contact", "form.contact"], ["slot", "form.slot"]];

// The fields of each form: name, first value, and for a choice its values; then the setting that they make.
const FORMS = {
    group: {
        fields: [["where", "contact", PLACES], ["slot", "0"], ["address", "100001"], ["name", "巡逻一组"],
            ["attribute", "3", [["3", "attribute.3"], ["2", "attribute.2"], ["1", "attribute.1"]]], ["priority", "0"], ["op", "add", OPERATIONS]],
        make: (values) => nameGroup({ ...values, ...calledBy(values), attribute: Number(values.attribute) }),
    },
    individual: {
        fields: [["where", "contact", PLACES], ["slot", "0"], ["address", "100001"], ["name", "李队长"], ["priority", "0"], ["op", "add", OPERATIONS]],
        make: (values) => nameIndividual({ ...values, ...calledBy(values) }),
    },
    line: {
        fields: [["where", "contact", PLACES], ["slot", "0"], ["idType", "0", [["0", "idType.0"], ["1", "idType.1"]]], ["digits", "2345"], ["name", "值班室"],
            ["op", "add", OPERATIONS]],
        make: (values) => addLine({ ...values, idType: Number(values.idType), slot: slotOf(values) }),
    },
    channels: {
        fields: [["op", "add", OPERATIONS], ["channels", "241, 242"]],
        make: (values) => setChannels({ op: values.op, channels: numbers(values.channels) }),
    },
    quick: { fields: [["index", "0"], ["text", "立即返回集合点"]], make: (values) => quickText({ index: Number(values.index), text: values.text }) },
    status: { fields: [["code", "32"], ["text", "到达现场"]], make: (values) => statusText({ code: Number(values.code), text: values.text }) },
    last: {
        fields: [["hashCode", "1", [["0", "hashCode.0"], ["1", "hashCode.1"], ["2", "hashCode.2"]]], ["hash", "20261117"],
            ["reply", "1", [["1", "value.yes"], ["0", "value.no"]]], ["reboot", "0", [["0", "value.no"], ["1", "value.yes"]]]],
        make: (values) => lastItem({ code: Number(values.hashCode), hashHex: values.hash, reply: values.reply === "1", reboot: values.reboot === "1" }),
    },
};

function control([name, first, choices]) {
    const key = `${draft.form}.${name}`;
    const value = draft.values[key] ?? first;
    const keep = (event) => {
        draft.values[key] = event.target.value;
    };
    if (!choices) return labelled(`form.${name}`, el("input", { "data-key": `form-${name}`, value, autocomplete: "off", oninput: keep }));
    const options = choices.map(([each, words]) => el("option", { value: each, selected: each === value }, say(words)));
    return labelled(`form.${name}`, el("select", { "data-key": `form-${name}`, onchange: keep }, options));
}

function valuesOf(form) {
    return Object.fromEntries(form.fields.map(([name, first]) => [name, draft.values[`${draft.form}.${name}`] ?? first]));
}

// What no bytes can say is told in words; what the library should refuse is written, so that its refusal can be seen.
function attempt(action) {
    try {
        action();
    } catch (fault) {
        if (!fault.key) throw fault;
        byId("compose-fault").textContent = say(fault.key, fault.values);
        announce(say(fault.key, fault.values));
    }
}

function addSetting() {
    attempt(() => {
        const setting = FORMS[draft.form].make(valuesOf(FORMS[draft.form]));
        writeSetting(setting, draft.coding);
        draft.settings.push(setting);
        draw();
        announce(say("form.added", { count: draft.settings.length }));
    });
}

function send() {
    attempt(() => {
        if (draft.settings.length === 0) addSetting();
        if (draft.settings.length === 0) return;
        const message = composeRequest(draft.settings, { coding: draft.coding });
        draft.settings = [];
        draw();
        addNext(message);
    });
}

function drafted() {
    if (draft.settings.length === 0) return el("p", {}, say("form.noSettings"));
    const parsed = parseMessage(composeRequest(draft.settings, { coding: draft.coding }));
    return el("ol", { class: "settings" }, parsed.settings.map((setting) => el("li", {}, settingInWords(setting))));
}

function chooser(key, pairs, value, keep) {
    const options = pairs.map(([each, words]) => el("option", { value: each, selected: String(each) === String(value) }, say(words)));
    return labelled(key, el("select", { "data-key": key, onchange: (event) => attempt(() => (keep(event.target.value), draw())) }, options));
}

function draw() {
    const forms = Object.keys(FORMS).map((key) => [key, `form.of.${key}`]);
    fill(byId("compose"),
        el("div", { class: "row" },
            chooser("form.setting", forms, draft.form, (form) => (draft.form = form)),
            chooser("form.coding", [[codingUnicode, `coding.${codingUnicode}`], [codingEight, `coding.${codingEight}`]], draft.coding,
                (coding) => (draft.coding = Number(coding)))),
        el("div", { class: "row" }, FORMS[draft.form].fields.map(control)),
        el("div", { class: "row" }, button("form.add", addSetting), button("form.send", send, { class: "main" }),
            button("form.clear", () => {
                draft.settings = [];
                draw();
            }, { disabled: draft.settings.length === 0 })),
        el("p", { id: "compose-fault", class: "fault", role: "alert" }), drafted());
}

export function startCompose() {
    addEventListener("languagechanged", draw);
    draw();
}
