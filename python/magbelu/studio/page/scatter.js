// Items of one sink over those of another: I over Q.

import { drawAxes } from "./axes.js";

const DOT = 2;

export const scatter = {
    title: "I over Q",
    isWhole: true,
    needsOther: true,
    most: 8192,
    paint(area, { numbers }, plot) {
        const { context, colour } = area;
        const count = numbers.length / 2;
        let far = 1;
        for (const it of numbers) far = Math.max(far, Math.abs(it));
        // (both axes have one scale)
        const middle = (area.left + area.right) / 2, half = Math.min(area.bottom - area.top, area.right - area.left) / 2;
        const square = { ...area, left: middle - half, right: middle + half };
        const { x, y } = drawAxes(square, [-far * 1.05, far * 1.05], [-far * 1.05, far * 1.05], { title: `${plot.sink} to the right, ${plot.other} up`, wholeX: true, wholeY: true });
        context.fillStyle = colour.trace;
        for (let at = 0; at < count; at++) context.fillRect(x(numbers[at]) - DOT / 2, y(numbers[count + at]) - DOT / 2, DOT, DOT);
        return null;
    },
    point: () => "",
};
