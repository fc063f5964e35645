// How the blocks of a run work: what of it is shown, by the numbers that the server measured.

import { brief, element, grouped } from "./elements.js";

// From which part of its time on that a run waits for its inputs these limit it.
const MOST_WAIT = 0.5;

/** How many items a second come through the inputs of a run. */
const fedOf = (run, rates) => Object.keys(run.fed).reduce((sum, it) => sum + (rates[it] ?? 0), 0);

/** How many items a second a block takes, or gives where it takes none; nothing where that is not known. */
export function rateOf(name, run, rates) {
    const works = run.works.blocks[name];
    const each = works?.takes[0] ?? works?.gives[0];
    return rates[name] ?? (each === undefined ? undefined : each * fedOf(run, rates));
}

/** The share of a block in the work of all, where it was measured. */
export const shareOf = (name, run) => run.works.blocks[name]?.share ?? null;

/** Which blocks limit a run, and how that is said: the one that works most, or the inputs, where the run waits for
 * these. */
export function limitOf(run) {
    const fed = Object.keys(run.fed);
    if (run.state === "running" && fed.length && run.waits > MOST_WAIT) return { names: fed, says: run.rate ? "the pace limits the run" : "its input limits the run" };
    return { names: run.limits === null || !fed.length ? [] : [run.limits], says: "limits the run" };
}

/** What the page says of how a block works: what it takes and gives, its share, and its buffers. */
export function worksTable(name, graph, run, rates, wait) {
    const works = run.works.blocks[name];
    if (!works) return [];
    const fed = fedOf(run, rates), each = (items) => items.map((it) => brief(it * fed)).join(", ");
    const row = (says, value) => element("tr", {}, element("th", {}, says), element("td", {}, value));
    const buffers = graph.connects.map((it, number) => [it, run.works.fills[number]]).filter(([it, fill]) => it.to === name && fill);
    return [element("table", {},
        ...(fed > 0 && works.takes.length ? [row("takes", each(works.takes))] : []),
        ...(fed > 0 && works.gives.length ? [row("gives", each(works.gives))] : []),
        row("share of the work", `${(100 * works.share).toFixed(1)} %`),
        ...buffers.map(([it, [held, room]]) => row(`input ${it.to_port} holds up to`, `${grouped(held)} of ${grouped(room)} items`)),
        ...(wait ? [row("now", wait)] : []),
        ...(limitOf(run).names.includes(name) ? [row("", limitOf(run).says)] : []))];
}

/** Which items firings of a block took of a port, or gave there, by their numbers. */
function itemsSaid([first, count], port) {
    if (!count) return `no items of ${port}`;
    if (count === 1) return `item ${grouped(first)} of ${port}`;
    return `items ${grouped(first)} to ${grouped(first + count - 1)} of ${port}`;
}

/** What came of firings of a block. */
export function firingsSaid(did) {
    const { firings, took, gave, needs } = did;
    const items = (ports, side) => ports.map((it, port) => itemsSaid(it, `${side} ${port}`)).join(", ");
    const parts = [`fired ${grouped(firings)} ${firings === 1 ? "time" : "times"}`];
    if (firings && took.length) parts.push(`took ${items(took, "input")}`);
    if (firings && gave.length) parts.push(`gave ${items(gave, "output")}`);
    if (needs[0] === "items") parts.push(`it waits for items at input ${needs[1]}`);
    if (needs[0] === "room") parts.push(`it waits for room at output ${needs[1]}`);
    return parts.join("; ");
}
