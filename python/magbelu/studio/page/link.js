// The web socket to the server. It comes back by itself.

const FIRST_WAIT = 300, LONGEST_WAIT = 3000;

/** Numbers of 32 bits behind a head, as the server packs them. */
function unpacked(data) {
    const length = new DataView(data).getUint32(0, true);
    const head = JSON.parse(new TextDecoder().decode(new Uint8Array(data, 4, length)));
    return [head, new Int32Array(data, 4 + length)];
}

export class Link {
    /** `told` has a function for each part of a message, `frame` for a frame, and `open` and `closed` for what becomes
     * of the link. */
    constructor(told) {
        this.told = told;
        this.asked = new Map();
        this.number = 0;
        this.wait = FIRST_WAIT;
        this.open();
    }

    open() {
        const address = new URL("link", location.href);
        address.protocol = "ws:";
        this.socket = new WebSocket(address);
        this.socket.binaryType = "arraybuffer";
        this.socket.onopen = () => {
            this.wait = FIRST_WAIT;
            this.told.open();
        };
        this.socket.onmessage = (message) => this.take(message.data);
        this.socket.onclose = () => this.close();
    }

    close() {
        for (const { refused } of this.asked.values()) refused(new Error("the server does not answer"));
        this.asked.clear();
        this.told.closed();
        setTimeout(() => this.open(), this.wait);
        this.wait = Math.min(2 * this.wait, LONGEST_WAIT);
    }

    take(data) {
        if (typeof data !== "string") {
            this.told.frame(...unpacked(data));
            return;
        }
        const message = JSON.parse(data);
        if (!("reply" in message)) {
            for (const [part, value] of Object.entries(message)) this.told[part]?.(value);
            return;
        }
        const waiting = this.asked.get(message.reply);
        this.asked.delete(message.reply);
        if (waiting && "refused" in message) waiting.refused(new Error(message.refused));
        else waiting?.answered(message.answer);
    }

    /** Tells the server something that has no answer. */
    say(what) {
        if (this.socket.readyState === WebSocket.OPEN) this.socket.send(JSON.stringify(what));
    }

    /** Asks the server for something, and promises its answer. */
    ask(what) {
        if (this.socket.readyState !== WebSocket.OPEN) return Promise.reject(new Error("the server does not answer"));
        const id = ++this.number;
        this.socket.send(JSON.stringify({ ...what, id }));
        return new Promise((answered, refused) => this.asked.set(id, { answered, refused }));
    }
}
