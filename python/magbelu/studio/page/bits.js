// Items as bits, a row for each bit that is used.

import { drawAxes, drawTags, line, scale } from "./axes.js";

const GAP = 4, WIDTHS = { byte: 8, short: 16, int: 32 };

/** How many bits the items of a type use. */
function bitsOf(numbers, type) {
    let all = 0;
    for (const it of numbers) all |= it;
    return Math.min(32 - Math.clz32(all) || 1, WIDTHS[type]);
}

export const bits = {
    title: "bits",
    isWhole: true,
    most: 8192,
    paint(area, { head, numbers }, plot) {
        const { context, colour } = area;
        const rows = bitsOf(numbers, plot.type);
        const range = [head.first, Math.max(head.end, head.first + 1)];
        // (no numbers stand at the left: the rows have names there)
        const { x } = drawAxes(area, range, [0, 0], { wholeX: true, noY: true });
        const height = (area.bottom - area.top) / rows;
        context.textAlign = "right";
        context.textBaseline = "middle";
        if (height < 12) context.font = "9px system-ui, sans-serif";
        for (let bit = 0; bit < rows; bit++) {
            const low = area.bottom - bit * height - GAP / 2, high = low - height + GAP;
            context.fillStyle = colour.faint;
            context.fillText(`bit ${bit}`, area.left - 6, (low + high) / 2);
            context.strokeStyle = colour.grid;
            line(context, area.left, low + GAP / 4, area.right, low + GAP / 4);
            context.strokeStyle = colour.trace;
            context.beginPath();
            numbers.forEach((it, place) => {
                const at = (it >> bit) & 1 ? high : low;
                context.lineTo(x(head.first + place), at);
                context.lineTo(x(head.first + place + 1), at);
            });
            context.stroke();
        }
        drawTags(area, head.tags, x);
        return scale(area.left, area.right, ...range);
    },
};
