// Elements of the page. All data goes into them as text.
import { compact, digits, shown } from "./words.js";

export function el(name, { dataset, ...properties } = {}, ...children) {
  const element = Object.assign(document.createElement(name), properties);
  Object.assign(element.dataset, dataset);
  element.append(...children.flat(9).filter((child) => child !== undefined && child !== ""));
  return element;
}

/** A text of the history, which can't turn around what is beside it. */
export const data = (text) => el("bdi", {}, text);
export const link = (kind, number, text) => el("a", { href: `#${kind}-${number}` }, data(text));
const button = (text, onclick) => el("button", { type: "button", onclick }, text);

/** A value as JSON: its front, and all of it if you ask for that. */
export function value(given, most = 160) {
  const text = shown(compact(given));
  if (text.length <= most) return el("code", {}, text);
  const [code, all] = [el("code", {}, `${text.slice(0, most)}…`), button("Show all", () => { code.textContent = text; all.remove(); })];
  return [code, " ", all];
}

/** Fills a list with what comes of the items: the first of them, and more if you ask for that. */
export function listed(list, items, render, most = 100) {
  list.append(...items.slice(0, most).map(render));
  if (items.length <= most) return list;
  const more = button(`Show more of ${digits(items.length - most)}`, () => { place.remove(); listed(list, items.slice(most), render, most * 10); });
  const place = list.tagName === "TBODY" ? el("tr", {}, el("td", { colSpan: 9, className: "text" }, more)) : el("li", {}, more);
  list.append(place);
  return list;
}

/** A table, whose rows you sort by its columns. A column has a name, what it sorts by, and if it is a text what it shows. */
export function table(caption, columns, rows, foot = []) {
  const body = el("tbody");
  const cell = (tag, { name, show }, content) => el(tag, { className: show ? "text" : "", dataset: { name } }, content);
  const cells = (of, tag = "td") => columns.map((column, at) => cell(tag, column, of(column, at)));
  const fill = (sorted) => listed(body, sorted, (row) => el("tr", {}, cells(({ show, by }) => (show ? show(row) : digits(by(row))))));
  const heads = cells(({ name, by }, at) => button(name, () => {
    const sign = heads[at].ariaSort === "descending" ? 1 : -1;
    for (const head of heads) head.ariaSort = head === heads[at] ? (sign > 0 ? "ascending" : "descending") : null;
    body.replaceChildren();
    fill([...rows].sort((a, b) => sign * (by(a) < by(b) ? -1 : by(a) > by(b))));
  }), "th");
  fill(rows);
  const footer = foot.length ? el("tfoot", {}, el("tr", {}, cells((_, at) => foot[at]))) : "";
  return el("div", { className: "wide" }, el("table", {}, el("caption", {}, caption), el("thead", {}, el("tr", {}, heads)), body, footer));
}
