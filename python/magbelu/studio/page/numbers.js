// Items as numbers in a row, for reading and for copying.

import { element, grouped } from "./elements.js";

const MOST = 512;

export const numbers = {
    title: "numbers",
    isWhole: true,
    most: MOST,
    /** Writes a frame as text. */
    write(at, { head, numbers: items }) {
        const tags = new Map();
        for (const [offset, key, value] of head.tags) tags.set(offset, [...(tags.get(offset) ?? []), `${key}=${value}`]);
        const parts = [];
        items.forEach((it, place) => {
            const on = tags.get(head.first + place);
            parts.push(element("span", { class: "item" }, String(it)));
            if (on) parts.push(element("span", { class: "tag" }, `@${grouped(head.first + place)}: ${on.join(" ")}`));
            parts.push(" ");
        });
        at.replaceChildren(...parts);
    },
};
