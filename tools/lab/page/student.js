// A student's page.

import { LabTerminal } from "./terminal.js";
import { sent } from "./terminals.js";
import { Link, asked, at, memory, number, question, tell } from "./link.js";

const SENT_AT_ONCE = 256, MOST_AHEAD = 2048;
const WORDS = { waits: "waits for a key", works: "works", stopped: "stopped", over: "stopped", ended: "ended" };
const CONTROLS = { Escape: "\x1b", Tab: "\t", "^C": "\x03" };

const newName = () => [...crypto.getRandomValues(new Uint8Array(8))].map(byte => byte.toString(16).padStart(2, "0")).join("");

// The keys of this page, each with its number. What the session has not got is sent again where the link or the service was lost.
class Keys {
    constructor() { this.begin(); }

    begin() {
        this.name = newName();
        this.first = this.sent = 0;
        this.kept = "";
    }

    get next() { return this.first + this.kept.length; }

    got(count) {
        if (count > this.first) {
            this.kept = this.kept.slice(count - this.first);
            this.first = count;
        }
        this.sent = Math.max(this.sent, this.first);
    }

    drop(from, to) {
        const begin = Math.max(0, from - this.first), end = Math.max(begin, to - this.first);
        this.kept = this.kept.slice(0, begin) + this.kept.slice(end);
    }
}

let terminal = null, told = {}, state = {}, paste = 16384, hasControl = false;
const keys = new Keys();

const flush = () => {
    while (keys.sent < keys.next && keys.sent < keys.first + MOST_AHEAD) {
        const part = keys.kept.slice(keys.sent - keys.first, keys.sent - keys.first + SENT_AT_ONCE);
        if (!link.send({ type: "keys", at: keys.sent, keys: part })) return;
        keys.sent += part.length;
    }
};

const type = data => {
    if (hasControl && data.length === 1) {
        const code = data.toUpperCase().charCodeAt(0);
        if (code >= 64 && code < 96) data = String.fromCharCode(code - 64);
        control(false);
    }
    const plain = [...data].filter(it => it <= "\x7f").join("");
    if (plain.length < [...data].length) tell(at("told"), "BadKey: letters with accents and signs beyond ASCII are no keys of CP/M; they were left out.");
    if (plain.length + keys.kept.length > paste) {
        tell(at("told"), `TooManyKeys: ${number(plain.length)} keys are too many at once; ${number(paste)} may wait.`);
        return;
    }
    if (state.why) {
        tell(at("told"), "NotRunning: the session doesn't run, so no key was taken.");
        return;
    }
    keys.kept += plain;
    flush();
};

const control = on => {
    hasControl = on;
    at("control").setAttribute("aria-pressed", String(on));
};

const showState = now => {
    state = now;
    at("badge").textContent = WORDS[now.is];
    at("badge").className = `badge ${now.is}`;
    at("steps").textContent = `You are at step ${number(now.steps)} of ${number(now.most)}.`;
    at("share").value = now.steps / now.most;
    at("pages").textContent = `${memory(now.pages, now.quota)} of memory are written (${now.cpu.toUpperCase()}).`;
    at("ended").textContent = now.why;
    at("ended").hidden = !now.why;
    at("looked").hidden = !now.looked;
    at("leave").checked = now.leave;
    const drives = [..."ABCD"].slice(0, now.drives);
    if (at("drive").options.length !== drives.length) at("drive").replaceChildren(...drives.map(letter => new Option(letter, letter)));
};

const hear = message => {
    switch (message.type) {
    case "hello":
        if (terminal && terminal.kind !== message.terminal) {
            // (the class has another terminal today)
            location.reload();
            return;
        }
        told = message;
        paste = message.paste;
        document.title = `${message.name} · ${message.lab}`;
        at("name").textContent = message.name;
        at("lab").textContent = message.lab;
        if (!terminal) begin();
        if (message.wanted < keys.first) {
            // (the service knows this page no more: it begins to count anew)
            const rest = keys.kept;
            keys.begin();
            keys.kept = rest;
            link.socket.close();
            return;
        }
        keys.sent = Math.min(message.wanted, keys.next);
        flush();
        break;
    case "anew": terminal.anew(message.text); break;
    case "shown": terminal.write(message.text); break;
    case "typed":
        keys.got(message.count);
        flush();
        break;
    case "state": showState(message.state); break;
    case "refused":
        if (message.refused !== "LostKeys") {
            tell(at("told"), `${message.refused}: ${message.why}`);
            if ("at" in message) keys.drop(message.wanted, message.at + message.count);
        }
        if ("wanted" in message) keys.sent = Math.min(Math.max(message.wanted, keys.first), keys.next);
        if ("at" in message) flush();
        break;
    }
};

const link = new Link(() => `socket?page=${keys.name}`, hear, (isOpen, isOver) => {
    at("badge").textContent = isOver ? "not connected" : "connecting again";
    at("badge").className = "badge stopped";
});

const begin = () => {
    terminal = new LabTerminal(at("terminal"), { kind: told.terminal, arrows: told.arrows, onKeys: type });
    const size = Number(localStorage.getItem("size"));
    if (size) terminal.resize(size);
    for (const button of document.querySelectorAll("[data-key]")) button.hidden = !pressed(button);
    terminal.focus();
    window.terminal = terminal;
};

const resize = size => {
    terminal.resize(size);
    localStorage.setItem("size", String(size));
    terminal.focus();
};
at("smaller").onclick = () => resize(terminal.size() - 1);
at("larger").onclick = () => resize(terminal.size() + 1);
at("fit").onclick = () => resize(0);
at("control").onclick = () => {
    control(!hasControl);
    terminal.focus();
};
// What a button for a key types.
const pressed = button => CONTROLS[button.dataset.key] || sent(told.terminal, button.dataset.key, told.arrows);
for (const button of document.querySelectorAll("[data-key]")) {
    button.onclick = () => {
        type(pressed(button));
        terminal.focus();
    };
}
at("paste").onclick = async () => {
    try {
        type((await navigator.clipboard.readText()).replace(/\r?\n/g, "\r"));
    } catch {
        tell(at("told"), "The browser gives no clipboard here: paste with Ctrl+Shift+V or Shift+Insert in the terminal.");
    }
    terminal.focus();
};
at("leave").onchange = () => {
    link.send({ type: "leave", leave: at("leave").checked });
    terminal.focus();
};

at("reset").onclick = async () => {
    const isWanted = await question(at("ask-reset"));
    terminal.focus();
    if (isWanted) await asked("reset", { method: "POST" }).catch(wrong);
};

const wrong = fault => tell(at("told"), fault.message);
const listFiles = async () => {
    const drive = at("drive").value;
    const { names } = await asked(`files?drive=${drive}`);
    at("files").replaceChildren(...names.map(name => {
        const item = document.createElement("li"), anchor = document.createElement("a");
        anchor.href = `file?drive=${drive}&name=${encodeURIComponent(name)}`;
        anchor.download = "";
        anchor.textContent = name;
        item.append(anchor);
        return item;
    }));
    at("files-told").textContent = names.length ? "A click downloads a file of the disk." : "The disk has no files of user 0.";
};
// What is typed behind a click goes to the terminal; a phone would show its keyboard for that.
const typeOn = () => { if (!matchMedia("(pointer: coarse)").matches) terminal.focus(); };
at("list").onclick = () => {
    typeOn();
    listFiles().catch(wrong);
};
at("drive").onchange = () => listFiles().catch(wrong);
at("store").onchange = async () => {
    const file = at("store").files[0];
    if (!file) return;
    try {
        const drive = at("drive").value;
        await asked(`file?drive=${drive}&name=${encodeURIComponent(file.name.toUpperCase())}`, { method: "POST", body: file });
        await listFiles();
    } catch (fault) { wrong(fault); }
    at("store").value = "";
    terminal.focus();
};
const printout = async () => {
    const { text } = await asked("printout");
    at("paper").textContent = text ? text.replace(/\r/g, "") : "Nothing was printed yet.";
    at("paper").hidden = false;
};
at("printout").onclick = () => {
    typeOn();
    printout().catch(wrong);
};
at("print").onclick = () => printout().then(() => window.print()).catch(wrong);
