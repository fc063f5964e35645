// An editor for a text, with the numbers of its lines, a mark where it has a fault, and undo.

import { element } from "./elements.js";

const PAUSE = 600, MOST_UNDONE = 500;

export class Editor {
    /** `changed` is called with the text whenever it is another. */
    constructor(at, changed) {
        this.changed = changed;
        this.field = element("textarea", { spellcheck: "false", wrap: "off", "aria-label": "the graph file" });
        this.back = element("pre", { class: "back", "aria-hidden": "true" });
        this.lines = element("pre", { class: "lines", "aria-hidden": "true" });
        at.append(this.lines, element("div", { class: "sheet" }, this.back, this.field));
        this.undone = [""];
        this.place = 0;
        this.typedAt = -Infinity;
        this.field.addEventListener("input", () => this.typed());
        this.field.addEventListener("scroll", () => this.scroll());
        this.field.addEventListener("keydown", (event) => this.press(event));
    }

    get text() {
        return this.field.value;
    }

    press(event) {
        if (!(event.ctrlKey || event.metaKey) || event.altKey) return;
        const key = event.key.toLowerCase();
        if (key === "z" || key === "y") {
            event.preventDefault();
            this.undo(key === "y" || event.shiftKey ? 1 : -1);
        }
    }

    typed() {
        // (what is typed without a pause is undone at once)
        if (performance.now() - this.typedAt < PAUSE && this.place > 0) this.undone.splice(this.place, Infinity, this.text);
        else this.keep(this.text);
        this.typedAt = performance.now();
        this.show();
    }

    keep(text) {
        this.undone.splice(this.place + 1, Infinity, text);
        if (this.undone.length > MOST_UNDONE) this.undone.shift();
        this.place = this.undone.length - 1;
    }

    /** Puts another text in the place of this one, which can be undone, unless it is the `first`. */
    replace(text, isFirst = false) {
        if (isFirst) [this.undone, this.place] = [[text], 0];
        else if (text !== this.text) this.keep(text);
        this.typedAt = -Infinity;
        this.field.value = text;
        this.show();
    }

    /** Goes back to the text before, or forth again. */
    undo(by = -1) {
        if (!(this.place + by in this.undone)) return;
        this.place += by;
        this.typedAt = -Infinity;
        this.field.value = this.undone[this.place];
        this.show();
    }

    show() {
        this.lines.textContent = this.text.split("\n").map((_, at) => at + 1).join("\n");
        this.mark(null);
        this.changed(this.text);
    }

    /** Marks the word of a fault, by its line, column and length, counted from 1 in characters, or nothing. */
    mark(fault) {
        if (!fault) {
            this.back.textContent = this.text + "\n";
            return;
        }
        const lines = this.text.split("\n");
        const line = [...(lines[fault.line - 1] ?? "")];
        const before = [...lines.slice(0, fault.line - 1), line.slice(0, fault.column - 1).join("")].join("\n");
        const word = line.slice(fault.column - 1, fault.column - 1 + fault.length).join("");
        const behind = this.text.slice(before.length + word.length) + "\n";
        this.back.replaceChildren(before, element("mark", {}, word || " "), behind);
        this.scroll();
    }

    scroll() {
        this.back.scrollTop = this.lines.scrollTop = this.field.scrollTop;
        this.back.scrollLeft = this.field.scrollLeft;
    }
}
