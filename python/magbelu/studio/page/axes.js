// What all plots have in common: their area, colours, scales, axes and tags.

import { grouped } from "./elements.js";

const LEFT = 62, RIGHT = 10, TOP = 18, BOTTOM = 20, TICK_X = 110, TICK_Y = 34;

/** The colours of the page as it is now. */
export function colours() {
    const style = getComputedStyle(document.documentElement);
    const names = ["text", "faint", "line", "trace", "second", "tag", "paper", "grid"];
    return Object.fromEntries(names.map((it) => [it, style.getPropertyValue(`--${it}`).trim()]));
}

/** The part of a canvas in which is drawn, with its context at one unit a pixel of the page. */
export function areaOf(canvas) {
    const ratio = devicePixelRatio || 1, width = canvas.clientWidth, height = canvas.clientHeight;
    if (canvas.width !== Math.round(width * ratio) || canvas.height !== Math.round(height * ratio)) {
        canvas.width = Math.round(width * ratio);
        canvas.height = Math.round(height * ratio);
    }
    const context = canvas.getContext("2d");
    context.setTransform(ratio, 0, 0, ratio, 0, 0);
    context.font = "12px system-ui, sans-serif";
    const colour = colours();
    context.fillStyle = colour.paper;
    context.fillRect(0, 0, width, height);
    return { context, colour, width, height, left: LEFT, right: width - RIGHT, top: TOP, bottom: height - BOTTOM };
}

/** How many columns a canvas has room for: up to two a pixel, since they come in powers of two of items. */
export const columnsOf = (canvas) => Math.max(1, Math.min(4096, Math.round(2 * (canvas.clientWidth - LEFT - RIGHT))));

/** Steps of 1, 2 or 5 times a power of ten, of which about `count` lie between two numbers. */
export function ticks(low, high, count) {
    const rough = (high - low) / Math.max(1, count);
    const power = 10 ** Math.floor(Math.log10(Math.max(rough, 1e-12)));
    const step = power * [1, 2, 5, 10].find((it) => it * power >= rough * 0.999);
    const found = [];
    for (let at = Math.ceil(low / step) * step; at <= high + step * 1e-9; at += step) found.push(Math.abs(at) < step * 1e-9 ? 0 : at);
    return found;
}

/** A scale from numbers to places. */
export const scale = (low, high, from, to) => (value) => from + ((value - low) * (to - from)) / (high - low || 1);

export function shortened(number) {
    if (Number.isInteger(number)) return grouped(number);
    return String(Number(number.toPrecision(4)));
}

/** The axes, with the numbers at them: whole ones alone where `wholeX` or `wholeY` says so, and none at the left with
 * `noY`. */
export function drawAxes(area, [low, high], [least, greatest], labels = {}) {
    const { context, colour } = area;
    const x = scale(low, high, area.left, area.right), y = scale(least, greatest, area.bottom, area.top);
    context.lineWidth = 1;
    context.strokeStyle = colour.grid;
    context.fillStyle = colour.faint;
    context.textBaseline = "middle";
    context.textAlign = "right";
    for (const at of labels.noY ? [] : ticks(least, greatest, (area.bottom - area.top) / TICK_Y)) {
        if (labels.wholeY && !Number.isInteger(at)) continue;
        line(context, area.left, y(at), area.right, y(at));
        context.fillText(shortened(at), area.left - 6, y(at));
    }
    context.textBaseline = "top";
    context.textAlign = "center";
    for (const at of ticks(low, high, (area.right - area.left) / TICK_X)) {
        if (labels.wholeX && !Number.isInteger(at)) continue;
        line(context, x(at), area.top, x(at), area.bottom);
        const text = shortened(at), half = context.measureText(text).width / 2;
        context.fillText(text, Math.min(x(at), area.width - half - 2), area.bottom + 5);
    }
    if (labels.title) {
        context.textAlign = "left";
        context.textBaseline = "alphabetic";
        context.fillText(labels.title, area.left, area.top - 6);
    }
    return { x, y };
}

export function line(context, fromX, fromY, toX, toY) {
    context.beginPath();
    context.moveTo(fromX, fromY);
    context.lineTo(toX, toY);
    context.stroke();
}

/** Marks of tags, with their names where there is room. */
export function drawTags(area, tags, x) {
    const { context, colour } = area;
    context.strokeStyle = context.fillStyle = colour.tag;
    context.textAlign = "left";
    context.textBaseline = "alphabetic";
    let free = 0;
    for (const [offset, key, value] of tags) {
        const at = x(offset);
        context.setLineDash([3, 3]);
        line(context, at, area.top, at, area.bottom);
        context.setLineDash([]);
        const text = `${key}=${value}`, width = context.measureText(text).width;
        const left = Math.min(at + 2, area.width - width - 2);
        if (left < free) continue;
        context.fillText(text, left, area.top - 6);
        free = left + width + 10;
    }
}
