// Spectra of the last items, and spectra below each other as time goes on.

import { drawAxes } from "./axes.js";
import { spectrumOf } from "./fourier.js";

const LOW = -120, HIGH = 6, MOST_ROWS = 256;
// What of a type stands at 0 dB: the amplitude of the loudest sine.
const FULL = { byte: 2 ** 7, short: 2 ** 15, int: 2 ** 31 };
const TITLE = "cycles an item";

export const spectrum = {
    title: "spectrum",
    isWhole: true,
    most: 8192,
    paint(area, { numbers }, plot) {
        const { context, colour } = area;
        const { x, y } = drawAxes(area, [0, 0.5], [LOW, HIGH], { title: `dB over ${TITLE}` });
        if (numbers.length < 2) return null;
        const levels = spectrumOf(numbers, FULL[plot.type]);
        plot.peak = levels.indexOf(Math.max(...levels)) / (2 * (levels.length - 1));
        context.strokeStyle = colour.trace;
        context.beginPath();
        levels.forEach((it, at) => context.lineTo(x((at * 0.5) / (levels.length - 1)), y(Math.max(it, LOW))));
        context.stroke();
        return null;
    },
    point: (plot, x) => pointed(plot, x),
};

// The colours of levels from the lowest to the highest.
const SHADES = [[0, 0, 8], [20, 16, 90], [112, 20, 120], [214, 50, 70], [250, 150, 30], [255, 245, 190]];

/** A colour for a level. */
function shade(level) {
    const part = Math.min(Math.max((level - LOW) / (HIGH - LOW), 0), 0.9999) * (SHADES.length - 1);
    const at = Math.floor(part);
    return SHADES[at].map((it, place) => it + (SHADES[at + 1][place] - it) * (part - at));
}

function rowOf(levels) {
    const row = new ImageData(levels.length, 1);
    levels.forEach((it, at) => {
        row.data.set([...shade(it), 255], 4 * at);
    });
    return row;
}

export const waterfall = {
    title: "waterfall",
    isWhole: true,
    most: 8192,
    paint(area, { head, numbers }, plot) {
        if (numbers.length >= 2 && head !== plot.rowsHead) this.add(plot, head, spectrumOf(numbers, FULL[plot.type]));
        const rows = plot.rows;
        drawAxes(area, [0, 0.5], [0, 1], { title: `newest above, over ${TITLE}`, noY: true });
        if (!rows) return null;
        const { context } = area;
        const height = Math.min(plot.rowCount, MOST_ROWS);
        const depth = ((area.bottom - area.top) * height) / MOST_ROWS;
        context.imageSmoothingEnabled = false;
        context.drawImage(rows, 0, 0, rows.width, height, area.left, area.top, area.right - area.left, depth);
        return null;
    },
    /** Adds a row above the others. */
    add(plot, head, levels) {
        plot.rowsHead = head;
        if (plot.rows?.width !== levels.length) {
            plot.rows = new OffscreenCanvas(levels.length, MOST_ROWS);
            plot.rowCount = 0;
        }
        const context = plot.rows.getContext("2d", { willReadFrequently: true });
        context.drawImage(plot.rows, 0, 1);
        context.putImageData(rowOf(levels), 0, 0);
        plot.rowCount++;
    },
    point: (plot, x) => pointed(plot, x),
};

function pointed(plot, x) {
    const { left, right } = plot.area;
    const at = ((x - left) * 0.5) / (right - left);
    return at >= 0 && at <= 0.5 ? `${at.toFixed(4)} cycles an item` : "";
}
