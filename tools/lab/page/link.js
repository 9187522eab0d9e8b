// A socket that is connected again by itself: soon at first, as a service that was killed is there again after a second, and later less often.

const SOONEST = 200, LATEST = 2000, SOON = 10;

export class Link {
    constructor(address, onMessage, onOpen) {
        this.address = address;
        this.onMessage = onMessage;
        this.onOpen = onOpen;
        this.begin();
        this.isOver = false;
        this.connect();
    }

    begin() {
        this.wait = SOONEST;
        this.tries = 0;
    }

    connect() {
        const place = new URL(this.address(), location.href);
        place.protocol = location.protocol === "https:" ? "wss:" : "ws:";
        this.socket = new WebSocket(place);
        this.socket.onopen = () => this.begin();
        this.socket.onmessage = event => {
            const message = JSON.parse(event.data);
            if (message.is_last) this.isOver = true;
            this.onMessage(message);
        };
        this.socket.onclose = () => {
            this.onOpen(false, this.isOver);
            if (this.isOver) return;
            setTimeout(() => this.connect(), this.wait);
            if (++this.tries > SOON) this.wait = Math.min(this.wait * 1.5, LATEST);
        };
    }

    get isOpen() { return this.socket.readyState === WebSocket.OPEN; }

    send(message) {
        if (this.isOpen) this.socket.send(JSON.stringify(message));
        return this.isOpen;
    }
}

export const at = id => document.getElementById(id);

// Tells something for a while; a place that is a popover is above each dialog that is open.
export const tell = (place, text) => {
    place.textContent = text;
    place.hidden = !text;
    if (place.popover && place.matches(":popover-open")) place.hidePopover();
    if (place.popover && text) place.showPopover();
    clearTimeout(place.timer);
    if (text) place.timer = setTimeout(() => tell(place, ""), 12000);
};

const AWAY = "NoService: the lab isn't reached just now, so nothing was done. Try again in a moment.";

// What a request of the page gives; what is refused is told by its words.
export const asked = async (address, options) => {
    const reply = await fetch(address, options).catch(() => { throw new Error(AWAY); });
    // (what stands before the lab tells in its own words that it isn't there)
    const value = await reply.json().catch(() => { throw new Error(AWAY); });
    if (!reply.ok) throw new Error(`${value.refused}: ${value.why}`);
    return value;
};

// Opens a dialog, and gives what is read of it once it is closed by yes, and else nothing. A browser tells of a closing a little later. If the dialog is open
// again by then, that is of the question before, which was answered when this one began.
const answers = new Map();
export const question = (dialog, prepare = () => {}, read = () => true) => new Promise(done => {
    if (dialog.open) {
        done(null);
        return;
    }
    answers.get(dialog)?.();
    prepare();
    dialog.returnValue = "no";
    answers.set(dialog, () => {
        answers.delete(dialog);
        done(dialog.returnValue === "yes" ? read() : null);
    });
    dialog.onclose = () => { if (!dialog.open) answers.get(dialog)?.(); };
    dialog.showModal();
});

// Does something once a dialog is closed, and not open again.
export const closed = (dialog, work) => { dialog.onclose = () => { if (!dialog.open) work(); }; };

export const number = value => value.toLocaleString("en");

// Memory is counted in pages of 256 bytes by the host, and in KiB for people.
export const memory = (pages, quota) => `${number(pages / 4)} of ${number(quota / 4)} KiB`;
