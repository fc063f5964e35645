// Taps as bars, and how much they amplify each frequency.

import { areaOf, drawAxes, line, scale } from "./axes.js";
import { responseOf } from "./fourier.js";

const RANGE = 80;

/** Draws taps, in the lower third, and the response of a filter that divides by 2 to the power `shift`. */
export function drawTaps(canvas, taps, shift) {
    if (!canvas.clientWidth) return;
    const area = areaOf(canvas);
    const { context, colour } = area;
    const levels = responseOf(taps, shift);
    const top = Math.ceil(Math.max(...levels, -RANGE) / 10) * 10 + 5;
    const upper = { ...area, left: 44, bottom: area.top + (area.bottom - area.top) * 0.6 };
    const { x, y } = drawAxes(upper, [0, 0.5], [top - RANGE, top], { title: "dB over cycles an item" });
    context.strokeStyle = colour.trace;
    context.beginPath();
    levels.forEach((it, at) => context.lineTo(x((at * 0.5) / (levels.length - 1)), y(Math.max(it, top - RANGE))));
    context.stroke();
    const far = Math.max(1, ...taps.map(Math.abs));
    const middle = (upper.bottom + 24 + area.height) / 2, half = (area.height - upper.bottom - 28) / 2;
    const place = scale(-0.5, taps.length - 0.5, upper.left, upper.right), rise = scale(-far, far, middle + half, middle - half);
    context.strokeStyle = colour.grid;
    line(context, upper.left, middle, upper.right, middle);
    context.fillStyle = colour.second;
    const width = Math.max(1, (place(1) - place(0)) * 0.7);
    taps.forEach((it, at) => context.fillRect(place(at) - width / 2, Math.min(rise(it), middle), width, Math.max(1, Math.abs(rise(it) - middle))));
}
