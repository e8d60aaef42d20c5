// Small steps over the document: elements, bytes as text, and what is said aloud to a screen reader.
import { say } from "./say.js";

// el("p", {class: "x", onclick: f}, "text", child): a list among the children is spread; null and false are left out.
export function el(tag, attributes = {}, ...children) {
    const node = document.createElement(tag);
    for (const [name, value] of Object.entries(attributes)) {
        if (value === null || value === undefined || value === false) continue;
        if (name.startsWith("on")) node.addEventListener(name.slice(2), value);
        else if (name === "value" || name === "checked" || name === "disabled") node[name] = value;
        else node.setAttribute(name, value === true ? "" : String(value));
    }
    node.append(...children.flat().filter((child) => child !== null && child !== undefined && child !== false));
    return node;
}

export function byId(id) {
    return document.getElementById(id);
}

// Puts these children in place of what stands there; the focus goes back to the control that had it, by its data-key.
export function fill(node, ...children) {
    const held = node.contains(document.activeElement) ? document.activeElement.dataset.key : undefined;
    node.replaceChildren(...children.flat().filter(Boolean));
    if (held !== undefined) node.querySelector(`[data-key="${CSS.escape(held)}"]`)?.focus();
}

export function button(key, onclick, options = {}) {
    const { values, ...attributes } = options;
    return el("button", { type: "button", "data-key": key, onclick, ...attributes }, say(key, values));
}

export function labelled(key, control) {
    return el("label", {}, el("span", {}, say(key)), control);
}

// A choice by pairs of value and text.
export function choice(key, pairs, value, onchange) {
    const select = el("select", { "data-key": key, onchange: (event) => onchange(event.target.value) },
        pairs.map(([each, text]) => el("option", { value: each, selected: String(each) === String(value) }, text)));
    return labelled(key, select);
}

export function hexByte(byte) {
    return byte.toString(16).toUpperCase().padStart(2, "0");
}

export function hexBytes(bytes) {
    return Array.from(bytes, hexByte).join(" ");
}

export function hexAddress(address) {
    return address.toString(16).toUpperCase().padStart(6, "0");
}

// Said to a screen reader, and shown in the line below the heading.
export function announce(text) {
    byId("said").textContent = text;
}

export function nextFrame() {
    return new Promise((done) => requestAnimationFrame(() => done()));
}
