// The settings of a graph: a slider and a field for each number, an editor for taps, and the log of what was set.

import { element, grouped, wholeIn } from "./elements.js";
import { drawTaps } from "./taps.js";

const MOST_SHOWN = 200;

export class Settings {
    /** `ask` asks the server, shows why where it refuses, and gives the answer. */
    constructor(at, log, ask) {
        Object.assign(this, { at, log, ask, rows: new Map() });
    }

    draw(graph) {
        this.rows.clear();
        this.log.replaceChildren();
        for (const it of graph.blocks) if (it.setting) this.rows.set(it.name, it.setting.taps === null ? this.number(it) : this.taps(it));
        this.at.replaceChildren(...[...this.rows.values()].map((it) => it.element));
        if (!this.rows.size) this.at.replaceChildren(element("p", { class: "note" }, "no block of this graph can be set"));
    }

    /** A slider and a field. While a slider is dragged, the newest number is set once the last one was answered. */
    number({ name, setting }) {
        const { key, low, high, value } = setting;
        const range = { min: low, max: high, value, "aria-label": `${name} ${key}` };
        const slider = element("input", { type: "range", ...range }), field = element("input", { type: "number", ...range });
        const answer = element("output", {});
        let wanted = null, isAsked = false;
        const send = async () => {
            if (isAsked) return;
            isAsked = true;
            while (wanted !== null) {
                const number = wanted;
                wanted = null;
                await this.set(name, number, answer);
            }
            isAsked = false;
        };
        const take = (from, other) => () => {
            if (!from.checkValidity() || from.value === "") {
                answer.textContent = `a whole number from ${grouped(low)} to ${grouped(high)}`;
                return;
            }
            other.value = from.value;
            wanted = Number(from.value);
            send();
        };
        slider.addEventListener("input", take(slider, field));
        field.addEventListener("change", take(field, slider));
        const row = element("div", { class: "setting" }, element("h3", {}, name), element("span", { class: "note" }, key), slider, field, answer);
        row.dataset.block = name;
        return { element: row, show: (shown) => [slider, field].forEach((it) => document.activeElement !== it && (it.value = shown)) };
    }

    /** An editor for taps, with the response that they have. */
    taps({ name, setting, parameters }) {
        const field = element("textarea", { rows: 4, spellcheck: "false", "aria-label": `${name} taps` }, setting.value.join(" "));
        const canvas = element("canvas", { "aria-label": `the taps of ${name} and their response` });
        const answer = element("output", {});
        const read = () => {
            const words = field.value.split(/[\s,]+/).filter(Boolean);
            const wrong = words.find((it) => !/^-?\d+$/.test(it) || Number(it) < setting.low || Number(it) > setting.high);
            if (wrong !== undefined) throw new Error(`${wrong} is no whole number from ${grouped(setting.low)} to ${grouped(setting.high)}`);
            if (words.length !== setting.taps) throw new Error(`there are ${words.length} numbers: this filter has ${setting.taps} taps`);
            return words.map(Number);
        };
        // (what is wrong, if anything; an answer stands until one types)
        const look = () => {
            try {
                drawTaps(canvas, read(), parameters.shift ?? 0);
                return "";
            } catch (error) {
                return error.message;
            }
        };
        const send = () => {
            answer.textContent = look();
            if (!answer.textContent) this.set(name, read(), answer);
        };
        field.addEventListener("input", () => (answer.textContent = look()));
        field.addEventListener("keydown", (event) => event.key === "Enter" && event.ctrlKey && send());
        const button = element("button", { type: "button", title: "sets the taps (ctrl enter)", onclick: send }, "Set");
        const row = element("div", { class: "setting taps" }, element("h3", {}, name), element("span", { class: "note" }, "taps"), field, canvas, button, answer);
        row.dataset.block = name;
        new ResizeObserver(look).observe(canvas);
        return { element: row, look, show: (shown) => document.activeElement !== field && ((field.value = shown.join(" ")), look()) };
    }

    /** Draws all responses anew, as in other colours. */
    look() {
        for (const it of this.rows.values()) it.look?.();
    }

    /** Sets a block, and says from which item on. */
    async set(block, value, answer) {
        let at;
        try {
            at = wholeIn(document.getElementById("at"));
        } catch (error) {
            answer.textContent = error.message;
            return;
        }
        const from = await this.ask({ do: "set", block, value, at });
        answer.textContent = from === undefined ? "refused" : `from item ${grouped(from)} on`;
    }

    /** Takes in what was set, here or in another page. */
    take(made) {
        for (const [block, value, at] of made) {
            this.rows.get(block)?.show(value);
            const text = Array.isArray(value) ? `${value.length} taps` : grouped(value);
            this.log.prepend(element("li", {}, element("b", {}, block), ` ${text} from item ${grouped(at)} on`));
        }
        while (this.log.children.length > MOST_SHOWN) this.log.lastChild.remove();
    }
}
