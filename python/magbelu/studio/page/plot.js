// A plot of what a sink takes, which moves along.

import { areaOf, columnsOf } from "./axes.js";
import { bits } from "./bits.js";
import { element, grouped } from "./elements.js";
import { levels } from "./levels.js";
import { numbers } from "./numbers.js";
import { scatter } from "./scatter.js";
import { spectrum, waterfall } from "./spectrum.js";

const KINDS = { levels, bits, spectrum, waterfall, scatter, numbers };
const FIRST_SPAN = 4096, LEAST_SPAN = 8, MOST_SPAN = 2 ** 22, NEAR = 5, LONGEST_REST = 500;

export class Plot {
    /** A plot of a sink, whose items have a type, or of it and one of the `others`. `more` is called for another plot
     * of the same sink, where it may be closed too. */
    constructor(link, name, { sink, type, others }, kind = "levels", more = null) {
        Object.assign(this, { link, name, sink, type, others, more, other: others[0], span: FIRST_SPAN, start: null, key: null, frame: null });
        this.kind = KINDS[kind];
        this.canvas = element("canvas", { tabindex: 0, "aria-label": `plot of ${sink}` });
        this.text = element("div", { class: "numbers", tabindex: 0 });
        this.told = element("output", { class: "told" });
        this.pointed = element("output", { class: "pointed" });
        this.missed = element("output", { class: "missed" });
        this.figure = element("figure", {}, this.bar(kind), this.canvas, this.text, element("figcaption", {}, this.told, this.pointed, this.missed));
        this.figure.dataset.sink = sink;
        this.listen();
    }

    bar(kind) {
        const button = (text, title, does) => element("button", { type: "button", title, onclick: does }, text);
        const option = (value, text, selected) => element("option", { value, selected }, text);
        const kinds = Object.entries(KINDS).filter(([, it]) => !it.needsOther || this.others.length);
        this.select = element("select", { class: "kind", title: "how it is shown", onchange: () => this.show(this.select.value) },
            ...kinds.map(([key, it]) => option(key, it.title, key === kind)));
        this.holds = button("Hold", "hold or follow (h)", () => this.hold(this.start === null));
        this.keys = element("select", { class: "key", title: "shows the last tag with this key", onchange: () => this.trigger(this.keys.value || null) },
            option("", "no trigger"));
        this.second = element("select", { class: "other", title: "the sink for Q", hidden: true, onchange: () => ((this.other = this.second.value), this.ask()) },
            ...this.others.map((it) => option(it, `Q: ${it}`)));
        return element("div", { class: "bar" }, element("h2", {}, this.sink), this.select, this.second, button("\u2212", "more items (-)", () => this.zoom(2)),
            button("+", "fewer items (+)", () => this.zoom(0.5)), this.holds, this.keys,
            element("a", { href: `items/${encodeURIComponent(this.sink)}`, download: `${this.sink}.raw`, title: "the last items that are kept, as raw items" }, "Save"),
            button("Another", "another plot of this sink", () => this.more?.(this)),
            (this.closes = button("Close", "close this plot", () => this.more?.(this, true))));
    }

    listen() {
        this.canvas.addEventListener("wheel", (event) => {
            event.preventDefault();
            this.zoom(event.deltaY > 0 ? 1.25 : 0.8, this.itemAt(event.offsetX));
        }, { passive: false });
        this.canvas.addEventListener("pointerdown", (event) => this.drag(event));
        this.canvas.addEventListener("pointermove", (event) => this.point(event.offsetX));
        this.canvas.addEventListener("pointerleave", () => this.pointed.replaceChildren());
        this.canvas.addEventListener("keydown", (event) => this.press(event));
        this.watch = new ResizeObserver(() => this.ask());
        this.watch.observe(this.canvas);
    }

    press(event) {
        const does = {
            "+": () => this.zoom(0.5), "-": () => this.zoom(2), h: () => this.hold(this.start === null), End: () => this.hold(false),
            ArrowLeft: () => this.move(-this.span / 8), ArrowRight: () => this.move(this.span / 8),
        }[event.key];
        if (!does || event.ctrlKey || event.metaKey) return;
        event.preventDefault();
        does();
    }

    /** Asks the server for what is to be shown. */
    ask() {
        const isText = Boolean(this.kind.write);
        this.canvas.hidden = isText;
        this.text.hidden = !isText;
        this.second.hidden = !this.kind.needsOther;
        const span = Math.min(this.span, this.kind.most ?? MOST_SPAN);
        this.link.say({
            do: "view", view: this.name, sink: this.sink, span, width: isText ? 1 : columnsOf(this.canvas), whole: Boolean(this.kind.isWhole),
            start: this.start, key: this.key, other: this.kind.needsOther ? this.other : null,
        });
        this.holds.setAttribute("aria-pressed", this.start !== null);
    }

    show(kind) {
        this.kind = KINDS[kind];
        this.frame = this.items = null;
        this.pointed.replaceChildren();
        this.ask();
    }

    hold(isHeld) {
        this.start = isHeld ? this.frame?.head.start ?? 0 : null;
        this.ask();
    }

    trigger(key) {
        this.key = key;
        this.start = null;
        this.ask();
    }

    move(items) {
        this.start = Math.max(0, Math.round((this.start ?? this.frame?.head.start ?? 0) + items));
        this.ask();
    }

    /** Shows fewer or more items; where it is held, the item at the pointer stays. */
    zoom(factor, around) {
        const before = this.span;
        this.span = Math.round(Math.min(Math.max(this.span * factor, LEAST_SPAN), MOST_SPAN));
        if (this.start !== null) {
            const middle = around ?? this.start + before / 2;
            this.start = Math.max(0, Math.round(middle - ((middle - this.start) * this.span) / before));
        }
        this.ask();
    }

    itemAt(x) {
        return this.items ? Math.round(this.items(x)) : 0;
    }

    drag(down) {
        const from = this.start ?? this.frame?.head.start ?? 0;
        const items = this.items;
        if (!items) return;
        const move = (event) => {
            if (Math.abs(event.offsetX - down.offsetX) < 2) return;
            this.start = Math.max(0, Math.round(from + items(down.offsetX) - items(event.offsetX)));
            this.ask();
        };
        this.canvas.setPointerCapture(down.pointerId);
        this.canvas.addEventListener("pointermove", move);
        this.canvas.addEventListener("lostpointercapture", () => this.canvas.removeEventListener("pointermove", move), { once: true });
    }

    /** Says which item the pointer is at, and which tags are near. */
    point(x) {
        if (this.frame && this.kind.point) this.pointed.textContent = this.kind.point(this, x);
        if (!this.frame || !this.items) return;
        const { head, numbers: values } = this.frame;
        const item = this.itemAt(x), count = values.length / 2;
        const column = Math.floor((item - head.first) / (head.step ?? 1));
        const parts = [];
        if (head.step && column >= 0 && column < count) parts.push(`items from ${grouped(head.first + column * head.step)}: ${values[column]} to ${values[count + column]}`);
        else if (!head.step && column in values) parts.push(`item ${grouped(item)}: ${values[column]}`);
        const reach = Math.abs(this.items(x + NEAR) - this.items(x));
        for (const [offset, key, value] of head.tags) if (Math.abs(offset - this.items(x)) <= reach) parts.push(`@${grouped(offset)} ${key}=${value}`);
        this.pointed.textContent = parts.join("   ");
    }

    take(head, values) {
        this.frame = { head, numbers: values };
        if (!this.isAwaited) requestAnimationFrame(() => this.paint());
        this.isAwaited = true;
    }

    paint() {
        this.isAwaited = false;
        const began = performance.now();
        this.draw();
        // (where drawing takes long, the page has as much time for what is pressed)
        setTimeout(() => this.link.say({ do: "taken", view: this.name }), Math.min(performance.now() - began, LONGEST_REST));
    }

    draw() {
        if (!this.frame) return;
        const { head } = this.frame;
        if (this.kind.write) this.kind.write(this.text, this.frame);
        else this.items = this.kind.paint((this.area = areaOf(this.canvas)), this.frame, this);
        const more = head.tags_more ? `, ${grouped(head.tags_more)} more tags` : "";
        const range = head.end > head.start ? `items ${grouped(head.start)} to ${grouped(head.end - 1)} of ${grouped(head.held)}` : "no items yet";
        this.told.textContent = range + more;
        this.missed.textContent = head.missed ? `${grouped(head.missed)} items went by undrawn` : "";
        this.offer(head.keys);
    }

    /** Offers the keys of tags as triggers. */
    offer(keys) {
        if (keys.join() === this.offered) return;
        this.offered = keys.join();
        this.keys.replaceChildren(element("option", { value: "" }, "no trigger"),
            ...keys.map((it) => element("option", { value: it, selected: it === this.key }, `at tag ${it}`)));
    }

    close() {
        this.watch.disconnect();
        this.link.say({ do: "close", view: this.name });
        this.figure.remove();
    }
}
