// What a user reads, by key, in one of two languages.
import { wordsEn } from "./words-en.js";
import { wordsZh } from "./words-zh.js";
import { wordsPageEn } from "./words-page-en.js";
import { wordsPageZh } from "./words-page-zh.js";

const sayAllEn = { ...wordsEn, ...wordsPageEn };
const sayAllZh = { ...wordsZh, ...wordsPageZh };
let sayLanguage = "en";

export function setLanguage(language) {
    sayLanguage = language === "zh" ? "zh" : "en";
    return sayLanguage;
}

export function getLanguage() {
    return sayLanguage;
}

function sayWords(language) {
    return (language || sayLanguage) === "zh" ? sayAllZh : sayAllEn;
}

export function hasWords(key, language) {
    return Object.prototype.hasOwnProperty.call(sayWords(language), key);
}

// The text of a key with its {name} places filled; a missing key, or a missing value, is shown in brackets and never throws.
export function say(key, values, language) {
    if (!hasWords(key, language)) return "⟦" + key + "⟧";
    const given = values || {};
    const fill = (place, name) => (given[name] === undefined ? "⟦" + name + "⟧" : String(given[name]));
    return sayWords(language)[key].replace(/\{(\w+)\}/g, fill);
}
