"use strict";
// Makes the rows that are seen, a hundred at a time; sorts them by a column, the other way round where they were sorted by it; and leaves out those without
// the word that is sought, or of another end or kind than is chosen.
const CONFIGURATION = 0, END = 1, KIND = 2, TOLD = 3, COUNT = 4, BYTES = 5, PROGRAM = 6, PROCESSOR = 7, CONSOLE = 8, CHANGED = 9, HAS_PAGE = 10;
const TOGETHER = 100;
const read = element => JSON.parse(element.textContent);
const rows = read(document.querySelector("#rows"));
const blocks = [...document.querySelectorAll(".screens")];
const screens = [];
const frame = document.querySelector(".table");
const body = document.querySelector("tbody");
const heads = [...document.querySelectorAll("thead th")];
const collator = new Intl.Collator("en", { numeric: true });
const chosen = { end: new Set(), kind: new Set() };
// what is sought in, of each row
const texts = [];
let order = rows.map((_, number) => number);
let view = order;
let made = 0;

function screen(number) {
    const block = Math.floor(number / TOGETHER);
    screens[block] ??= read(blocks[block]);
    return screens[block][number % TOGETHER];
}

// An element with texts and elements in it: what comes from a session is always a text.
function element(tag, className, ...inside) {
    const it = document.createElement(tag);
    if (className) it.className = className;
    it.append(...inside);
    return it;
}

function short(digest) {
    const it = element("span", "digest", digest.slice(0, 12));
    it.title = digest;
    return it;
}

const figure = value => element("td", "number", value === null ? "" : value.toLocaleString("en"));

// What leads to the page of a row's configuration, which has its console.
function linked(row, inside) {
    if (!row[HAS_PAGE]) return inside;
    const link = element("a", "", inside);
    link.href = `${frame.dataset.pages}${encodeURIComponent(row[CONFIGURATION])}.html#${encodeURIComponent(row[PROGRAM])}`;
    return link;
}

function rowOf(number) {
    const row = rows[number];
    const head = element("th", "", linked(row, row[CONFIGURATION]));
    head.scope = "row";
    const end = element("b", "", row[END]);
    end.style.color = `var(--${row[END]})`;
    const changed = row[CHANGED].map(([name, digest, files]) => element("div", "", `${name} `, short(digest), files ? ` ${files}` : ""));
    const facts = element("tr", "", head, element("td", "did", end, row[TOLD] ? ` ${row[TOLD]}` : ""), figure(row[COUNT]), figure(row[BYTES]),
        element("td", "", row[PROGRAM]), element("td", "", row[PROCESSOR]), element("td", "", row[CONSOLE] ? short(row[CONSOLE]) : ""),
        element("td", "changed", ...changed));
    const shown = screen(number);
    if (!shown) return [facts];
    const cell = element("td", "", linked(row, element("pre", "", shown)));
    cell.colSpan = heads.length;
    return [facts, element("tr", "screen", cell)];
}

function makeMore() {
    const next = view.slice(made, made + TOGETHER);
    body.append(...next.flatMap(rowOf));
    made += next.length;
    // (where the window has room for more, the end is seen again)
    if (made < view.length) watch.observe(end);
}

function show() {
    const sought = document.querySelector("input[type=search]").value.toLowerCase();
    view = order.filter(number => {
        const row = rows[number];
        if (chosen.end.size && !chosen.end.has(row[END]) || chosen.kind.size && !chosen.kind.has(row[KIND])) return false;
        if (!sought) return true;
        texts[number] ??= `${row.flat(2).join("\n")}\n${screen(number)}`.toLowerCase();
        return texts[number].includes(sought);
    });
    body.replaceChildren();
    made = 0;
    watch.unobserve(end);
    makeMore();
    document.querySelector("output").textContent = `${view.length.toLocaleString("en")} shown`;
}

function sortBy(head) {
    const isDown = head.getAttribute("aria-sort") === "ascending";
    const place = Number(head.dataset.place);
    const number = head.classList.contains("number");
    const value = row => number ? row[place] ?? -1 : place === TOLD ? `${row[END]} ${row[TOLD]}` : place === CHANGED ? row[place].join(" ") : row[place];
    const values = rows.map(value);
    order = rows.map((_, it) => it);
    order.sort((one, other) => number ? values[one] - values[other] : collator.compare(values[one], values[other]));
    if (isDown) order.reverse();
    for (const it of heads) it.removeAttribute("aria-sort");
    head.setAttribute("aria-sort", isDown ? "descending" : "ascending");
    show();
    frame.scrollTop = 0;
}

function choose(button) {
    const isOn = button.getAttribute("aria-pressed") !== "true";
    const group = chosen[button.dataset.group];
    if (isOn) group.add(button.dataset.word);
    else group.delete(button.dataset.word);
    button.setAttribute("aria-pressed", String(isOn));
    show();
}

const end = document.querySelector(".end");
const watch = new IntersectionObserver(seen => {
    if (!seen.some(it => it.isIntersecting)) return;
    watch.unobserve(end);
    makeMore();
}, { root: frame, rootMargin: "600px" });
heads.forEach(head => head.querySelector("button").addEventListener("click", () => sortBy(head)));
document.querySelectorAll("[data-group]").forEach(button => button.addEventListener("click", () => choose(button)));
document.querySelector("input[type=search]").addEventListener("input", show);
document.querySelector("input[type=checkbox]").addEventListener("change", event => frame.classList.toggle("bare", !event.target.checked));
makeMore();
