// A session's life once more, at any speed.

import { LabTerminal } from "./terminal.js";
import { asked, at, closed, number } from "./link.js";

const LONGEST_PAUSE = 2000, SLOWEST = 0.01, FASTEST = 100000, FAR = 1 << 18;
let terminal = null, life = null, timer = 0;

// The moments of a life: when, up to where the console is shown, and the count of steps at which it had shown that. Pauses are shortened if that is wanted.
const moments = ({ times, console: shown, steps: whole }, isShort) => {
    const found = [];
    let now = 0, last = times.length ? times[0][0] : 0;
    times.forEach(([ms], place) => {
        now += isShort ? Math.min(ms - last, LONGEST_PAUSE) : ms - last;
        last = ms;
        const [, steps, end] = times[place + 1] || [0, whole, shown.length];
        found.push({ at: now, end, steps });
    });
    return found;
};

class Player {
    constructor(told) {
        this.told = told;
        this.now = this.next = this.shown = 0;
        this.isOn = true;
        this.arrange();
    }

    arrange() {
        this.moments = moments(this.told, at("replay-pauses").checked);
        this.length = this.moments.length ? this.moments[this.moments.length - 1].at + 1 : 1;
    }

    seek(now) {
        if (now < this.now || this.shown === 0) {
            terminal.anew(this.told.prologue);
            this.next = this.shown = 0;
        }
        this.now = now;
        while (this.next < this.moments.length && this.moments[this.next].at <= now) this.next++;
        const end = this.next ? this.moments[this.next - 1].end : 0;
        if (end > this.shown + FAR) terminal.anew(this.lastOf(end));
        else if (end > this.shown) terminal.write(this.told.console.slice(this.shown, end));
        this.shown = end;
        this.tell();
    }

    // The last of what was shown up to a place, from the next line on, for a screen that begins with it: a page that is late gets as much.
    lastOf(end) {
        const line = this.told.console.indexOf("\n", end - FAR) + 1;
        return this.told.console.slice(line > 0 && line < end ? line : end - FAR, end);
    }

    tell() {
        at("replay-at").value = Math.round(1000 * this.now / this.length);
        const steps = this.next ? this.moments[this.next - 1].steps : 0;
        const seconds = [this.now, this.length].map(it => (it / 1000).toFixed(1)).join(" of ");
        at("replay-told").textContent = `${seconds} s, step ${number(steps)}, ${number(this.shown)} bytes shown`;
        at("replay-play").textContent = this.isOn && this.now < this.length ? "Pause" : "Play";
    }
}

// How many times as fast as it was; what is no number is once.
const speed = () => Math.min(FASTEST, Math.max(SLOWEST, Number(at("replay-speed").value) || 1));

const tick = () => {
    const time = performance.now();
    if (life && life.isOn && life.now < life.length) life.seek(Math.min(life.length, life.now + (time - life.time) * speed()));
    if (life) life.time = time;
};

const load = async (id, number_) => {
    const told = await asked(`replay?id=${encodeURIComponent(id)}${number_ ? `&life=${number_}` : ""}`);
    at("replay-name").textContent = `Replay: ${told.name}`;
    at("replay-life").replaceChildren(...told.hows.map((how, place) => new Option(`${place + 1}: ${how}`, String(place + 1))));
    at("replay-life").value = String(told.life);
    life = new Player(told);
    life.time = performance.now();
    life.seek(0);
};

export const replay = async (id, kind) => {
    at("replay").showModal();
    terminal ||= new LabTerminal(at("replay-terminal"), { kind });
    terminal.fit();
    window.replayed = terminal;
    at("replay-life").onchange = () => load(id, at("replay-life").value);
    await load(id, "");
    clearInterval(timer);
    timer = setInterval(tick, 40);
};

closed(at("replay"), () => {
    clearInterval(timer);
    life = null;
});
at("replay-play").onclick = () => {
    if (!life) return;
    if (life.now >= life.length) {
        life.isOn = true;
        life.seek(0);
    } else life.isOn = !life.isOn;
    life.tell();
};
at("replay-pauses").onchange = () => {
    if (!life) return;
    const share = life.now / life.length;
    life.arrange();
    life.now = Infinity;
    life.seek(share * life.length);
};
at("replay-at").oninput = () => life?.seek(life.length * Number(at("replay-at").value) / 1000);
