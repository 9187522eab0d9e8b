// The terminals that CP/M's programs are set up for, as xterm.js shows them, which is a VT100 itself: what they show becomes its moves, letters and attributes.
// The tables are those of the terminals' manuals, as the crate cpm_screen has them. What is sent here for each key is what those had.

export const COLUMNS = 80, LINES = 24;
const CSI = "\x1b[", LOOKS = { bold: 1, underline: 4, blink: 5, reverse: 7 };
const NO_LOOK = new Set();

// A screen of which the cursor, the attributes and the tab stops are known here, and the letters to xterm.js alone.
class Translator {
    constructor(kind) {
        this.kind = kind;
        [this.controls, this.escapes] = TABLES[kind];
        this.begin();
    }

    // A terminal that was just turned on.
    begin() {
        this.row = this.column = 0;
        this.look = NO_LOOK;
        this.kept = [0, 0, NO_LOOK];
        this.inserts = false;
        this.stops = new Set(Array.from({ length: COLUMNS / 8 }, (_, place) => 8 * place));
        this.waits = null;
        this.out = "";
    }

    // What a VT100 is told in place of a console's text, which has a character for each byte.
    take(text) {
        this.out = "";
        for (let at = 0; at < text.length; at++) this.byte(text.charCodeAt(at) & 0x7f);
        return this.out;
    }

    byte(code) {
        const waits = this.waits;
        this.waits = null;
        if (waits) waits(this, code);
        else if (code >= 0x20 && code < 0x7f) this.put(String.fromCharCode(code));
        else if (code in this.controls) this.controls[code](this);
    }

    put(letter) {
        if (this.inserts) this.out += `${CSI}@`;
        this.out += letter;
        if (++this.column < COLUMNS) return;
        // (a VT52 stays in the last column; the others begin the next line at once)
        if (this.kind === "vt52") this.place(this.row, COLUMNS - 1);
        else this.nextLine();
    }

    place(row, column) {
        this.row = Math.min(LINES - 1, Math.max(0, row));
        this.column = Math.min(COLUMNS - 1, Math.max(0, column));
        this.out += `${CSI}${this.row + 1};${this.column + 1}H`;
    }

    by(rows, columns) { this.place(this.row + rows, this.column + columns); }

    start() {
        this.column = 0;
        this.out += "\r";
    }

    feed() {
        this.row = Math.min(LINES - 1, this.row + 1);
        this.out += "\n";
    }

    feedBack() {
        if (this.row) this.by(-1, 0);
        else this.edit(`${CSI}L`);
    }

    nextLine() {
        this.start();
        this.feed();
    }

    // Something of a VT100 that changes letters; the cursor stays.
    edit(what) {
        this.out += what;
        this.place(this.row, this.column);
    }

    clear() {
        this.place(0, 0);
        this.edit(`${CSI}J`);
    }

    tab() {
        const next = [...this.stops].filter(stop => stop > this.column);
        this.place(this.row, next.length ? Math.min(...next) : COLUMNS - 1);
    }

    fixedTab() {
        const next = this.column - this.column % 8 + 8;
        this.place(this.row, next < COLUMNS ? next : this.column + 1);
    }

    show(look) {
        this.look = look;
        this.out += `${CSI}${[0, ...[...look].map(name => LOOKS[name])].join(";")}m`;
    }

    switch(name, isOn) {
        const look = new Set(this.look);
        if (isOn) look.add(name);
        else look.delete(name);
        this.show(look);
    }

    // A row and a column, each a byte above 20h. One that isn't on the screen leaves the cursor's; a VT52 goes to the last column.
    address(row, column) {
        const other = this.kind === "vt52" ? COLUMNS - 1 : this.column;
        this.place(row >= 0 && row < LINES ? row : this.row, column >= 0 && column < COLUMNS ? column : other);
    }

    escape(code) {
        const letter = String.fromCharCode(code);
        if (letter in this.escapes) this.escapes[letter](this);
    }
}

// ---- what control characters and sequences do

const wants = what => it => { it.waits = what; };
const place = wants((it, row) => { it.waits = (_, column) => it.address(row - 0x20, column - 0x20); });
const skip = count => it => { if (count) it.waits = () => skip(count - 1)(it); };
const skipTo = last => it => { it.waits = (_, code) => { if (code !== last) skipTo(last)(it); }; };
const edit = what => it => it.edit(CSI + what);
const lettered = table => Object.fromEntries(Object.entries(table).flatMap(([letters, what]) => [...letters].map(letter => [letter, what])));

const KAYPRO_LOOKS = { 0: "reverse", 1: "bold", 2: "blink", 3: "underline" };
const kayproLook = isOn => wants((it, code) => {
    const letter = String.fromCharCode(code);
    if (letter in KAYPRO_LOOKS) it.switch(KAYPRO_LOOKS[letter], isOn);
    else if (letter === "6" && isOn) it.kept = [it.row, it.column, it.look];
    else if (letter === "6") {
        it.place(it.kept[0], it.kept[1]);
        it.show(it.kept[2]);
    }
});
const televideoLook = wants((it, code) => {
    it.show(new Set([["blink", 2], ["reverse", 4], ["underline", 8]].filter(([, bit]) => code & bit).map(([name]) => name)));
});

const MOVES = { 0x08: it => it.by(0, -1), 0x0a: it => it.feed(), 0x0d: it => it.start(), 0x1b: wants((it, code) => it.escape(code)) };
const ADM3A = { ...MOVES, 0x0b: it => it.by(-1, 0), 0x0c: it => it.by(0, 1), 0x1a: it => it.clear(), 0x1e: it => it.place(0, 0) };
const LINES_EDITED = { "=": place, E: edit("L"), R: edit("M") };
const TABLES = {
    adm3a: [ADM3A, { "=": place }],
    kaypro: [
        { ...ADM3A, 0x17: edit("J"), 0x18: edit("K") },
        lettered({ ...LINES_EDITED, B: kayproLook(true), C: kayproLook(false), " *": skip(2), DL: skip(4) }),
    ],
    televideo: [
        { ...ADM3A, 0x09: it => it.tab(), 0x16: it => it.by(1, 0), 0x1f: it => it.nextLine() },
        lettered({
            ...LINES_EDITED, "-": wants(it => { place(it); }), Q: edit("@"), W: edit("P"), Tt: edit("K"), Yy: edit("J"), "*+,:;": it => it.clear(),
            j: it => it.feedBack(), 1: it => it.stops.add(it.column), 2: it => it.stops.delete(it.column), 3: it => it.stops.clear(), G: televideoLook,
            "(": it => it.switch("bold", false), ")": it => it.switch("bold", true), q: it => { it.inserts = true; }, r: it => { it.inserts = false; },
            ".D": skip(1), 0: skip(2), x: skip(3), f: skipTo(0x0d), "|": skipTo(0x19),
        }),
    ],
    vt52: [
        { ...MOVES, 0x09: it => it.fixedTab() },
        {
            Y: place, A: it => it.by(-1, 0), B: it => it.by(1, 0), C: it => it.by(0, 1), D: it => it.by(0, -1), H: it => it.place(0, 0),
            I: it => it.feedBack(), J: edit("J"), K: edit("K"), "\x1b": wants((it, code) => it.escape(code)),
        },
    ],
};

// ---- the two that need no cursor

const SHOWN_AS_THEY_ARE = new Set([7, 8, 9, 10, 13]);

// A byte for a printing terminal: control characters as `cat -v` shows them.
const visible = code => {
    const high = code >= 128 ? "M-" : "", low = code & 127;
    if (!high && SHOWN_AS_THEY_ARE.has(low)) return String.fromCharCode(low);
    return high + (low === 127 ? "^?" : low < 32 ? "^" + String.fromCharCode(low + 64) : String.fromCharCode(low));
};

class Plain {
    constructor(show) { this.show = show; }

    begin() {}

    take(text) { return Array.from(text, it => this.show(it.charCodeAt(0))).join(""); }
}

// What stands between a console and xterm.js, for a kind of terminal. Each but the printing one has seven bits.
export const translator = kind => {
    if (kind === "dumb") return new Plain(visible);
    return kind === "vt100" ? new Plain(code => String.fromCharCode(code & 0x7f)) : new Translator(kind);
};

// ---- keys

const ADM3A_KEYS = { ArrowUp: "\x0b", ArrowDown: "\n", ArrowRight: "\f", ArrowLeft: "\b", Home: "\x1e" };
const functions = (count, sends) => Object.fromEntries(Array.from({ length: count }, (_, place) => [`F${place + 1}`, sends(place)]));
const after = (code, place) => String.fromCharCode(code + place);
const KEYS = {
    adm3a: ADM3A_KEYS,
    kaypro: ADM3A_KEYS,
    televideo: { ...ADM3A_KEYS, ArrowDown: "\x16", ...functions(10, place => `\x01${after(0x40, place)}\r`) },
    vt52: { ArrowUp: "\x1bA", ArrowDown: "\x1bB", ArrowRight: "\x1bC", ArrowLeft: "\x1bD", ...functions(3, place => `\x1b${after(0x50, place)}`) },
    vt100: { ArrowUp: "\x1b[A", ArrowDown: "\x1b[B", ArrowRight: "\x1b[C", ArrowLeft: "\x1b[D", ...functions(4, place => `\x1bO${after(0x50, place)}`) },
    dumb: {},
};
const WORDSTAR = {
    ArrowUp: "\x05", ArrowDown: "\x18", ArrowRight: "\x04", ArrowLeft: "\x13",
    Home: "\x11\x13", End: "\x11\x04", PageUp: "\x12", PageDown: "\x03",
};
const NAMED = /^(Arrow(Up|Down|Right|Left)|Home|End|PageUp|PageDown|Insert|F([1-9]|1[0-2]))$/;

// What a kind of terminal sends for a key by its name: nothing where it had no such key, and undefined where the key is one of letters. The arrows are its own,
// or WordStar's.
export const sent = (kind, name, arrows = "own") => {
    if (!NAMED.test(name)) return undefined;
    return (arrows === "wordstar" && WORDSTAR[name]) || KEYS[kind][name] || "";
};
