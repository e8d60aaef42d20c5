// web/tests/keys.mjs: what Chromium wants of a key event, by the key's name as a page sees it; a keyboard of the United States.
const named = {
    Backspace: 8, Tab: 9, Enter: 13, Escape: 27, PageUp: 33, PageDown: 34, End: 35, Home: 36,
    ArrowLeft: 37, ArrowUp: 38, ArrowRight: 39, ArrowDown: 40, Insert: 45, Delete: 46,
    F1: 112, F2: 113, F3: 114, F4: 115, F5: 116, F6: 117, F7: 118, F8: 119, F9: 120, F10: 121, F11: 122, F12: 123,
};
// Each has its bit in the events of the others.
const modifierKeys = {
    Alt: { bit: 1, code: "AltLeft", number: 18 },
    Control: { bit: 2, code: "ControlLeft", number: 17 },
    Meta: { bit: 4, code: "MetaLeft", number: 91 },
    Shift: { bit: 8, code: "ShiftLeft", number: 16 },
};
const marks = {
    ";": ["Semicolon", 186], "=": ["Equal", 187], ",": ["Comma", 188], "-": ["Minus", 189], ".": ["Period", 190], "/": ["Slash", 191],
    "`": ["Backquote", 192], "[": ["BracketLeft", 219], "\\": ["Backslash", 220], "]": ["BracketRight", 221], "'": ["Quote", 222],
};
const shifted = ")!@#$%^&*(:+<_>?~{|}\"";
const unshifted = "0123456789;=,-./`[\\]'";

const event = (key, code, number, text = "") => ({ key, code, windowsVirtualKeyCode: number, text, unmodifiedText: text });

// The key of one character, or null where no key of this keyboard has it.
function characterKey(character) {
    if (character === " ") return event(" ", "Space", 32, " ");
    if (/^[a-z]$/i.test(character)) return event(character, `Key${character.toUpperCase()}`, character.toUpperCase().charCodeAt(0), character);
    const place = shifted.indexOf(character);
    const plain = place < 0 ? character : unshifted[place];
    if (/^[0-9]$/.test(plain)) return event(character, `Digit${plain}`, plain.charCodeAt(0), character);
    return plain in marks ? event(character, ...marks[plain], character) : null;
}

// The event of a key by its name ("Tab", "Space", "a", "A"), and whether it is typed with Shift; null where there is no such key.
export function keyOf(name) {
    if (name === "Enter") return { ...event("Enter", "Enter", 13, "\r"), shift: false };
    if (name in named) return { ...event(name, name, named[name]), shift: false };
    const key = characterKey(name === "Space" ? " " : name);
    return key && { ...key, shift: /^[A-Z]$/.test(name) || (name.length === 1 && shifted.includes(name)) };
}

// The modifiers' own events, each with the bits of those that are held by then.
export function modifierEvents(names) {
    let bits = 0;
    return names.map((name) => {
        if (!(name in modifierKeys)) throw new Error(`no modifier ${name}: ${Object.keys(modifierKeys).join(", ")}`);
        const { bit, code, number } = modifierKeys[name];
        bits |= bit;
        return { key: name, code, windowsVirtualKeyCode: number, modifiers: bits };
    });
}
