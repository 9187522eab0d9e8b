// What a terminal of the lab shows, and what its keys are. All that a program prints is text or a sequence of xterm.js; none of it becomes a key.

import { COLUMNS, LINES, sent, translator } from "./terminals.js";

const LEAST = 6, MOST = 28, SMALL = 10;
// modes that would make a terminal send what nobody typed: the mouse, its focus, the frame of a paste
const SENDING = new Set([9, 1000, 1001, 1002, 1003, 1004, 1005, 1006, 1015, 2004]);

// Takes from a terminal all that would answer a program.
const mute = terminal => {
    const core = terminal._core, input = core._inputHandler, parse = input.parse.bind(input), setMode = input.setMode.bind(input);
    input.parse = data => {
        core.isParsing = true;
        try { parse(data); } finally { core.isParsing = false; }
    };
    input.setMode = (modes, prefix) => {
        const left = prefix === "?" ? modes.filter(mode => !SENDING.has(mode)) : modes;
        if (left.length) setMode(left, prefix);
    };
};

// Keys of a phone: what it changes in the field of a terminal behind a key of the number 229, which tells nothing, and the words that it composes. (xterm.js
// looks for the first too early, and cuts off a word for which another one was chosen.)
const CHANGES = { insertText: event => event.data, insertLineBreak: () => "\r", deleteContentBackward: () => "\b" }, UNTOLD = 229;
const takeChanges = (terminal, onKeys) => {
    const field = terminal._core.textarea, helper = terminal._core._compositionHelper;
    let isUntold = false;
    helper._handleAnyTextareaChanges = () => {};
    helper._finalizeComposition = () => {
        helper._isComposing = helper._isSendingComposition = false;
        helper._compositionView.classList.remove("active");
        helper._clearTextareaPosition();
    };
    field.addEventListener("keydown", event => { isUntold = event.keyCode === UNTOLD; }, true);
    field.addEventListener("compositionend", event => { if (event.data) onKeys(event.data); });
    field.addEventListener("input", event => {
        const keys = isUntold && !event.isComposing && event.inputType in CHANGES ? CHANGES[event.inputType](event) : "";
        if (keys) onKeys(keys);
    });
};

const FONT = "ui-monospace, \"DejaVu Sans Mono\", Menlo, Consolas, monospace";
const ruler = document.createElement("canvas").getContext("2d");

// How wide xterm.js makes a column at a size of letters.
const cell = size => {
    ruler.font = `${size}px ${FONT}`;
    return Math.floor(ruler.measureText("W").width * devicePixelRatio) / devicePixelRatio;
};

// How many rows of a font's letters are above the place where a text begins that is drawn from its top on.
const SAMPLE = "lfbdhkt|[]{}()/@$QWj", ABOVE = 8, rises = new Map();
const rise = font => {
    if (!rises.has(font)) {
        const canvas = document.createElement("canvas"), pen = canvas.getContext("2d", { willReadFrequently: true });
        [canvas.width, canvas.height] = [2048, ABOVE];
        pen.font = font;
        pen.textBaseline = "top";
        draw.call(pen, SAMPLE, 0, ABOVE);
        const inked = pen.getImageData(0, 0, canvas.width, ABOVE).data.findIndex(value => value > 0);
        rises.set(font, inked < 0 ? 0 : ABOVE - Math.floor(inked / (4 * canvas.width)));
    }
    return rises.get(font);
};

// xterm.js draws each letter from its top on, and cuts off what is above that: so all are drawn as much lower. Their lines have room for it.
const draw = CanvasRenderingContext2D.prototype.fillText;
CanvasRenderingContext2D.prototype.fillText = function fillText(text, x, y, ...more) {
    draw.call(this, text, x, this.textBaseline === "top" ? y + rise(this.font) : y, ...more);
};

const THEME = { background: "#101418", foreground: "#d7e0d7", cursor: "#7ee787" };

// A terminal in a place of the page.
export class LabTerminal {
    constructor(place, { kind, arrows = "own", onKeys = null, rows = LINES }) {
        this.place = place;
        this.kind = kind;
        this.arrows = arrows;
        this.translator = translator(kind);
        this.terminal = new window.Terminal({
            cols: COLUMNS, rows, scrollback: 1000, cursorBlink: false, bellStyle: "none", theme: THEME, disableStdin: !onKeys,
            fontFamily: FONT, fontSize: 12,
        });
        mute(this.terminal);
        this.terminal.open(place);
        this.terminal.on("data", data => { if (onKeys && !this.terminal._core.isParsing) onKeys(data); });
        this.terminal.attachCustomKeyEventHandler(event => {
            // (Backspace is BS on a VT100, and Delete is DEL)
            if (event.type !== "keydown" || event.altKey || event.metaKey) return true;
            const named = event.shiftKey ? undefined : this.sent(event.key);
            if (named !== undefined) {
                // (a key that the terminal had not is the browser's)
                if (named) event.preventDefault();
                if (onKeys && named) onKeys(named);
                return false;
            }
            if (event.key === "Backspace" || event.key === "Delete") {
                event.preventDefault();
                if (onKeys) onKeys(event.key === "Backspace" && !event.ctrlKey ? "\b" : "\x7f");
                return false;
            }
            return !(event.ctrlKey && event.shiftKey);
        });
        if (onKeys) takeChanges(this.terminal, onKeys);
        this.chosen = 0;
        this.fit();
        new ResizeObserver(() => this.fit()).observe(place);
    }

    // What the terminal sends for a key by its name. (xterm.js knows the VT100's, and whether a program has asked for others.)
    sent(name) {
        const keys = sent(this.kind, name, this.arrows);
        return this.kind === "vt100" && keys === sent("vt100", name) ? undefined : keys;
    }

    write(text) { this.terminal.write(this.translator.take(text)); }

    anew(text) {
        this.terminal.reset();
        this.translator.begin();
        this.write(text);
    }

    set typing(on) { this.terminal.setOption("disableStdin", !on); }

    focus() { this.terminal.focus(); }

    size() { return this.terminal.getOption("fontSize"); }

    // Sets the size of letters, or the largest at which all columns are seen.
    resize(size) {
        this.chosen = size;
        this.fit();
    }

    fit() {
        const style = getComputedStyle(this.place);
        const width = this.place.clientWidth - parseFloat(style.paddingLeft) - parseFloat(style.paddingRight);
        if (width <= 0) return;
        let size = this.chosen || MOST;
        while (!this.chosen && size > LEAST && cell(size) * COLUMNS > width) size--;
        size = Math.min(MOST, Math.max(LEAST, size));
        if (size === this.size()) return;
        this.terminal.setOption("fontSize", size);
        // (small letters are read more easily with some room between lines)
        this.terminal.setOption("lineHeight", size < SMALL ? 1.2 : 1);
    }
}

// A screen without a place, whose lines are read as text.
export class SmallScreen {
    constructor(kind) {
        this.translator = translator(kind);
        this.terminal = new window.Terminal({ cols: COLUMNS, rows: LINES, scrollback: 0, bellStyle: "none" });
        mute(this.terminal);
    }

    // Takes what was shown at once, and gives the lines.
    take(text, isAnew) {
        const core = this.terminal._core;
        if (isAnew) {
            core.reset();
            this.translator.begin();
        }
        core._inputHandler.parse(this.translator.take(text));
        const lines = [];
        for (let line = 0; line < LINES; line++) lines.push(core.buffer.translateBufferLineToString(core.buffer.ybase + line, true));
        return lines.join("\n");
    }
}
