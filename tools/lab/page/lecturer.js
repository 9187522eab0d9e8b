// The lecturer's page.

import { LabTerminal, SmallScreen } from "./terminal.js";
import { Link, asked, at, closed, memory, number, question, tell } from "./link.js";
import { replay } from "./replay.js";

const WORDS = { waits: "waiting", works: "working", stopped: "stopped", over: "used up", ended: "ended" };
const tiles = new Map();
let kind = "", arrows = "own", shoulder = null, watched = "";

const wrong = fault => tell(at("told"), fault.message);
const made = (name, className, text = "") => {
    const it = document.createElement(name);
    it.className = className;
    it.textContent = text;
    return it;
};

class Tile {
    constructor({ id, name }) {
        this.id = id;
        this.name = name;
        this.state = {};
        this.small = new SmallScreen(kind);
        this.place = made("article", "tile");
        this.place.dataset.id = id;
        const top = made("div", "top"), label = made("label", "");
        this.box = document.createElement("input");
        this.box.type = "checkbox";
        this.box.onchange = showChosen;
        this.badge = made("span", "badge");
        label.append(this.box, made("span", "", name));
        label.title = name;
        top.append(label, this.badge);
        const screen = made("button", "screen");
        screen.type = "button";
        screen.setAttribute("aria-label", `look over the shoulder of ${name}`);
        screen.onclick = () => look(id);
        this.pre = document.createElement("pre");
        screen.append(this.pre);
        const used = made("div", "used");
        this.steps = made("span", "");
        this.pages = made("span", "");
        used.append(this.steps, this.pages);
        this.place.append(top, screen, used);
    }

    take({ screen, state }) {
        if (screen) this.pre.textContent = this.small.take(screen.text, screen.type === "anew");
        this.state = state;
        this.badge.textContent = WORDS[state.is];
        this.badge.className = `badge ${state.is}`;
        this.badge.title = state.why;
        const share = Math.floor(100 * state.steps / state.most);
        this.steps.textContent = `${share}% · ${number(state.steps)} step${state.steps === 1 ? "" : "s"}`;
        this.pages.title = "memory that is written";
        this.steps.title = `${number(state.steps)} of ${number(state.most)} steps, ${number(state.console)} bytes shown, ${number(state.list)} printed`;
        this.pages.textContent = `${memory(state.pages, state.quota)}${state.script ? ` · ${state.script} lines to type` : ""}`;
    }
}

const chosen = () => [...tiles.values()].filter(tile => tile.box.checked).map(tile => tile.id);
const showChosen = () => {
    const count = chosen().length;
    at("for").textContent = count ? `for ${count} chosen:` : `for all ${tiles.size}:`;
    at("none").hidden = !count;
    for (const tile of tiles.values()) tile.place.classList.toggle("chosen", tile.box.checked);
};
at("none").onclick = () => {
    for (const tile of tiles.values()) tile.box.checked = false;
    showChosen();
};
const showCounts = () => {
    const counts = {};
    for (const tile of tiles.values()) counts[tile.state.is] = (counts[tile.state.is] || 0) + 1;
    at("counts").textContent = Object.keys(WORDS).filter(it => counts[it]).map(it => `${counts[it]} ${WORDS[it]}`).join(", ");
};

// How wide small screens are at least: as many as there are, so that a class is seen at once, unless it was chosen.
const WIDTHS = [120, 160, 240, 300, 400, 560];
const resize = by => {
    const now = Number(localStorage.getItem("tile")) || (tiles.size > 12 ? 160 : 300);
    const nearest = WIDTHS.findLastIndex(width => width <= now);
    const place = Math.min(WIDTHS.length - 1, Math.max(0, nearest + by));
    if (by) localStorage.setItem("tile", String(WIDTHS[place]));
    at("screens").style.setProperty("--tile", `${WIDTHS[place]}px`);
};
at("smaller").onclick = () => resize(-1);
at("larger").onclick = () => resize(1);

const begin = message => {
    if (kind && kind !== message.terminal) {
        // (the class has another terminal today)
        location.reload();
        return;
    }
    ({ terminal: kind, arrows } = message);
    document.title = `${message.lab} · lecturer`;
    at("lab").textContent = message.lab;
    at("badge").textContent = "connected";
    at("badge").className = "badge waits";
    const wasChosen = new Set(chosen());
    tiles.clear();
    for (const session of message.sessions) tiles.set(session.id, new Tile(session));
    for (const id of wasChosen) if (tiles.has(id)) tiles.get(id).box.checked = true;
    at("screens").replaceChildren(...[...tiles.values()].map(tile => tile.place));
    showChosen();
    resize(0);
    if (watched) link.send({ type: "watch", id: watched });
};

const times = count => count === 1 ? "once" : `${number(count)} times`;
const showShoulder = state => {
    at("shoulder-badge").textContent = WORDS[state.is];
    at("shoulder-badge").className = `badge ${state.is}`;
    at("shoulder-why").textContent = state.why.replace("Your lecturer has", "You have").replace("Your lecturer can", "You can");
    at("shoulder-why").hidden = !state.why;
    at("shoulder-used").textContent = `${number(state.steps)} of ${number(state.most)} steps, ${memory(state.pages, state.quota)} of memory, `
        + `${number(state.console)} bytes shown, ${number(state.list)} printed, begun anew ${times(state.life - 1)}`;
    at("types").disabled = !state.leave;
    at("no-leave").hidden = state.leave;
    if (!state.leave) at("types").checked = false;
};

const hear = message => {
    if (message.type === "class") return begin(message);
    if (message.type === "screens") {
        for (const it of message.screens) tiles.get(it.id)?.take(it);
        return showCounts();
    }
    if (message.type === "refused") return tell(at("told"), `${message.refused}: ${message.why}`);
    if (message.id !== watched || !shoulder) return undefined;
    if (message.type === "anew") shoulder.anew(message.text);
    if (message.type === "shown") shoulder.write(message.text);
    if (message.type === "state") showShoulder(message.state);
    return undefined;
};
const link = new Link(() => "socket", hear, (isOpen, isOver) => {
    at("badge").textContent = isOver ? "not connected" : "connecting again";
    at("badge").className = "badge stopped";
});

const look = id => {
    watched = id;
    at("shoulder-name").textContent = tiles.get(id).name;
    at("types").checked = false;
    at("shoulder").showModal();
    shoulder ||= new LabTerminal(at("shoulder-terminal"), { kind, arrows, onKeys: keys => {
        if (at("types").checked) link.send({ type: "keys", id: watched, keys });
    } });
    shoulder.anew("");
    shoulder.fit();
    link.send({ type: "watch", id });
    shoulder.focus();
    window.shoulder = shoulder;
};
closed(at("shoulder"), () => {
    watched = "";
    link.send({ type: "watch", id: "" });
});
at("types").onchange = () => shoulder.focus();

// ---- what is done

const post = async what => {
    const { done, refused } = await asked("do", { method: "POST", headers: { "Content-Type": "application/json" }, body: JSON.stringify(what) });
    const names = Object.entries(refused || {});
    if (names.length) throw new Error(`done for ${done}; not for ${names.map(([name, why]) => `${name} (${why})`).join(", ")}`);
};
const run = what => post(what).catch(wrong);

// Asks for what a doing needs: a name, a choice, a script.
const ask = ({ title, text, yes, label = null, choice = null, choiceName = "", script = false }) => question(at("ask"), () => {
    at("ask-title").textContent = title;
    at("ask-text").textContent = text;
    at("ask-yes").textContent = yes;
    at("ask-label-row").hidden = label === null;
    at("ask-label").value = label ?? "";
    at("ask-choice-row").hidden = !choice;
    at("ask-choice-name").textContent = choiceName;
    at("ask-choice").replaceChildren(...(choice || []).map(([name, value]) => new Option(name, value)));
    at("ask-script-row").hidden = !script;
}, () => ({ label: at("ask-label").value, choice: at("ask-choice").value, script: at("ask-script").value }));

const who = ids => ids === "all" ? `all ${tiles.size}` : ids.map(id => tiles.get(id).name).join(", ");
const those = () => chosen().length ? chosen() : "all";
const save = async ids => {
    const given = await ask({ title: "Save", text: `The sessions of ${who(ids)} are saved as they stand.`, yes: "Save", label: "" });
    if (given) await run({ do: "save", ids, label: given.label });
};
const setBack = async ids => {
    const { savings } = await asked("savings");
    const choice = [["the start", ""], ...savings.reverse().map(it => [`${it.label}: ${it.name}, step ${number(it.steps)}`, it.file])];
    const text = `What ${who(ids)} did since then leaves the screen, and stays in the archive.`;
    const given = await ask({ title: "Set back", text, yes: "Set back", choice, choiceName: "To" });
    if (given) await run({ do: "back", ids, saving: given.choice || null });
};
const fork = async (of, ids) => {
    const choice = [...tiles.values()].map(tile => [tile.name, tile.id]);
    const text = of ? `Who gets the session of ${tiles.get(of).name} as it stands? What they did leaves the screen, and stays in the archive.`
        : `The sessions of ${who(ids)} become as the one that is chosen here. What they did leaves the screen, and stays in the archive.`;
    const choices = of ? [["all others", "all"], ...choice.filter(it => it[1] !== of)] : choice;
    const given = await ask({ title: "Fork", text, yes: "Fork", choice: choices, choiceName: of ? "To" : "From" });
    if (!given) return;
    const from = of || given.choice, every = [...tiles.keys()];
    const to = of ? (given.choice === "all" ? every : [given.choice]) : ids === "all" ? every : ids;
    await run({ do: "fork", of: from, ids: to.filter(id => id !== from) });
};
at("stop").onclick = () => run({ do: "stop", ids: those() });
at("go").onclick = () => run({ do: "go", ids: those() });
at("save").onclick = () => save(those()).catch(wrong);
at("back").onclick = () => setBack(those()).catch(wrong);
at("fork").onclick = () => fork("", those()).catch(wrong);
at("broadcast").onclick = async () => {
    const given = await ask({ title: "Type a script", text: `The script is typed in the sessions of ${who(those())}.`, yes: "Type", script: true });
    if (given) await run({ do: "script", ids: those(), script: given.script });
};
at("one-stop").onclick = () => run({ do: "stop", ids: [watched] });
at("one-go").onclick = () => run({ do: "go", ids: [watched] });
at("one-save").onclick = () => save([watched]).catch(wrong);
at("one-back").onclick = () => setBack([watched]).catch(wrong);
at("one-fork").onclick = () => fork(watched, []).catch(wrong);
at("one-replay").onclick = () => replay(watched, kind).catch(wrong);
