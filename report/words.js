// Words: how texts, numbers and values read.

const UNSEEN = /[\p{Cc}\p{Cf}\p{Cs}\u2028\u2029]/gu;
const escaped = (unit) => `\\u${unit.charCodeAt(0).toString(16).padStart(4, "0")}`;
/** A text in which you see each character: those without a shape, and those that turn others around, read as in JSON. */
export const shown = (text) => text.replace(UNSEEN, (character) => character.split("").map(escaped).join(""));
/** The text, or its front if it is longer than this many characters. */
export const cut = (text, most) => (text.length <= most ? text : `${text.slice(0, most - 1).replace(/[\ud800-\udbff]$/, "")}…`);
/** JSON as values. A whole number that a double can't hold is a BigInt. */
export function parsed(text) {
  const exact = (_name, value, { source = "" } = {}) =>
    typeof value === "number" && !Number.isSafeInteger(value) && /^-?\d+$/.test(source) ? BigInt(source) : value;
  return /\d{16}/.test(text) ? JSON.parse(text, exact) : JSON.parse(text);
}
/** A value as compact JSON. */
export const compact = (value) => JSON.stringify(value, (_name, one) => (typeof one === "bigint" ? JSON.rawJSON(`${one}`) : one));
/** A number, to a tenth. */
export const digits = (number) => number.toLocaleString("en", { maximumFractionDigits: 1 });
export const counted = (count, thing) => `${digits(count)} ${thing}${count === 1 ? "" : thing.endsWith("h") ? "es" : "s"}`;
/** Why a batch failed. A host that keeps its outcomes doesn't say. */
export const faultWords = (fault = "(no cause told)") => fault.source ?? (fault === "memory" ? "out of memory" : fault);
