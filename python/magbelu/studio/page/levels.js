// Items over their numbers.

import { drawAxes, drawTags, scale } from "./axes.js";

const DOTS = 200;

/** The least and the greatest number that are shown, with room about them. */
function bounds(numbers) {
    let low = Infinity, high = -Infinity;
    for (const it of numbers) {
        if (it < low) low = it;
        if (it > high) high = it;
    }
    if (low > high) return [0, 1];
    const room = Math.max((high - low) * 0.06, 0.5);
    return [low - room, high + room];
}

function drawItems(area, { head, numbers }, x, y) {
    const { context, colour } = area;
    context.strokeStyle = context.fillStyle = colour.trace;
    context.beginPath();
    numbers.forEach((it, place) => context.lineTo(x(head.first + place), y(it)));
    context.stroke();
    if (numbers.length > DOTS) return;
    numbers.forEach((it, place) => {
        context.beginPath();
        context.arc(x(head.first + place), y(it), 2.5, 0, 2 * Math.PI);
        context.fill();
    });
}

function drawColumns(area, { head, numbers }, x, y) {
    const { context, colour } = area;
    const count = numbers.length / 2;
    context.strokeStyle = colour.trace;
    context.beginPath();
    for (let column = 0; column < count; column++) {
        const at = x(head.first + (column + 0.5) * head.step);
        const low = y(numbers[column]), high = y(numbers[count + column]);
        context.moveTo(at, high - 0.5);
        context.lineTo(at, low + 0.5);
    }
    context.lineWidth = Math.max(1, x(head.step) - x(0));
    context.stroke();
    context.lineWidth = 1;
}

export const levels = {
    title: "levels",
    /** Draws a frame, and gives the scale of the items. */
    paint(area, frame) {
        const { head, numbers } = frame;
        const last = Math.max(head.end - 1, head.start + 1);
        const range = [head.start, head.step ? head.end : last];
        const { x, y } = drawAxes(area, range, bounds(numbers), { wholeX: true, wholeY: true });
        area.context.save();
        area.context.beginPath();
        area.context.rect(area.left, 0, area.right - area.left + 1, area.bottom);
        area.context.clip();
        (head.step ? drawColumns : drawItems)(area, frame, x, y);
        area.context.restore();
        drawTags(area, head.tags, x);
        return scale(area.left, area.right, ...range);
    },
};
