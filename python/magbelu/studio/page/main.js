// The page: joins what the server tells to what is seen, and what is pressed to what the server is asked for.

import { grouped, wholeIn } from "./elements.js";
import { FilePane } from "./file.js";
import { GraphView, blockTable } from "./graph.js";
import { Link } from "./link.js";
import { Plot } from "./plot.js";
import { Settings } from "./settings.js";
import { firingsSaid, worksTable } from "./works.js";

const by = (id) => document.getElementById(id);
const plots = new Map();
const page = { graph: null, run: null, before: null, plots: 0, views: [] };
const settings = new Settings(by("settings"), by("log"), ask);
const graphView = new GraphView(by("graph"), chooseBlock, (connect) => file.connect(connect));
const file = new FilePane(ask, drawGraph, feedFile, fault);

const link = new Link({
    open: askAgain,
    closed: () => tell("no server", "the server does not answer: it has ended, or is not reached"),
    views: (views) => (page.views = views),
    graph: takeGraph,
    path: (path) => {
        by("path").textContent = path.split("/").pop();
        by("path").title = path;
        document.title = `${path.split("/").pop()} \u2013 magbelu studio`;
    },
    run: takeRun,
    saved: (text) => file.takeSaved(text),
    log: (made) => settings.take(made),
    kinds: (kinds) => file.takeKinds(kinds),
    frame: (head, numbers) => plots.get(head.view)?.take(head, numbers),
});

function askAgain() {
    for (const it of plots.values()) it.ask();
    fault("");
}

function tell(state, why) {
    by("state").textContent = state;
    by("state").dataset.state = state;
    if (why) fault(why);
}

function fault(text) {
    by("fault").textContent = text;
    by("fault").hidden = !text;
}

/** Asks the server, and shows why where it refuses. */
async function ask(what) {
    try {
        const answer = await link.ask(what);
        // (what is looked at by itself, as one types, is nothing that one did)
        if (what.do !== "look") fault("");
        return answer;
    } catch (error) {
        fault(error.message);
        return undefined;
    }
}

function takeGraph(graph) {
    page.graph = graph;
    page.before = page.run = null;
    fault("");
    drawGraph(graph);
    graphView.settle();
    file.take(graph.text);
    const all = graph.blocks.filter((it) => it.kind === "vector_sink").map((it) => it.name);
    // (those that the command names come first)
    const sinks = [...new Set([...page.views.map(([name]) => name).filter((it) => all.includes(it)), ...all])];
    for (const [name, it] of plots) if (!sinks.includes(it.sink)) (it.close(), plots.delete(name));
    for (const sink of sinks) if (![...plots.values()].some((it) => it.sink === sink)) addPlots(sink);
    settings.draw(graph);
}

/** Adds the plots with which a sink is shown at first. */
function addPlots(sink) {
    const [first, ...others] = page.views.filter(([name]) => name === sink).map(([, kind]) => kind);
    let last = addPlot(sink, null, first);
    for (const kind of others) last = addPlot(sink, last, kind);
}

/** Adds a plot of a sink, behind another one where that is said. */
function addPlot(sink, behind = null, kind = behind ? "spectrum" : "levels") {
    const all = page.graph.blocks.filter((it) => it.kind === "vector_sink");
    const type = all.find((it) => it.name === sink).parameters.type;
    const others = all.filter((it) => it.name !== sink && it.parameters.type === type).map((it) => it.name);
    const name = `v${++page.plots}`;
    const plot = new Plot(link, name, { sink, type, others }, kind, morePlots);
    plot.closes.hidden = !behind;
    plots.set(name, plot);
    if (behind) behind.figure.after(plot.figure);
    else by("plots").append(plot.figure);
    return plot;
}

function morePlots(plot, isClosed = false) {
    if (!isClosed) addPlot(plot.sink, plot);
    else (plots.delete(plot.name), plot.close());
}

/** How many items a second went through sources and sinks since the last time. */
function ratesOf(run, before) {
    const rates = {};
    const seconds = before ? run.time - before.time : 0;
    for (const part of ["fed", "held"]) {
        for (const [name, count] of Object.entries(run[part])) if (seconds > 0 && before.number === run.number) rates[name] = (count - before[part][name]) / seconds;
    }
    return rates;
}

function takeRun(run) {
    tell(run.state);
    if (run.fault) fault(run.fault);
    page.rates = ratesOf(run, page.before);
    page.before = page.run = run;
    showWorks();
    const isRunning = run.state === "running", isOver = !isRunning && run.state !== "paused";
    by("run").textContent = isRunning ? "Pause" : "Run";
    for (const id of ["run", "do-step", "do-to"]) by(id).disabled = isOver;
    by("fire").disabled = run.state !== "paused";
    if (document.activeElement !== by("rate")) by("rate").value = run.rate ?? "";
    const fed = Object.values(run.fed);
    by("state").title = fed.length ? `${fed.map(grouped).join(", ")} items were fed` : "";
}

/** Shows how the blocks of the run work, where the graph that is drawn is the one that runs. */
function showWorks() {
    const { run, graph, chosen, rates = {} } = page;
    const isRun = run && page.drawn?.text === graph?.text;
    if (isRun) graphView.show(run, rates);
    by("works").replaceChildren(...(isRun ? worksTable(chosen, graph, run, rates, graphView.wait(chosen, ...(run.needs[chosen] ?? []))) : []));
}

/** Draws a graph, the one that runs or the one that the file has now. */
function drawGraph(graph) {
    page.drawn = graph;
    graphView.draw(graph);
    graphView.choose(graph.blocks.some((it) => it.name === page.chosen) ? page.chosen : graph.blocks[0]?.name);
}

function chooseBlock(name) {
    const block = page.drawn.blocks.find((it) => it.name === name);
    page.chosen = name;
    showWorks();
    by("parameters").replaceChildren(...(block ? blockTable(block) : []));
    by("fired").textContent = "";
    by("watch").disabled = !block || block.kind.endsWith("_sink");
}

/** Begins a run in which a source gets the raw items of a file. */
async function feedFile(source, items) {
    try {
        const response = await fetch(`input/${encodeURIComponent(source)}`, { method: "POST", body: items });
        fault(response.ok ? "" : (await response.text()).trim());
    } catch (error) {
        fault(error.message);
    }
}

/** Has the chosen block fire. */
async function fire() {
    const count = whole(by("firings"));
    const did = count && (await ask({ do: "fire", block: page.chosen, count }));
    if (did) by("fired").textContent = firingsSaid(did);
}

/** Shows the plots or the file. */
function showTab(name) {
    for (const it of by("tabs").querySelectorAll("button")) {
        it.setAttribute("aria-selected", it.dataset.shows === name);
        by(it.dataset.shows).hidden = it.dataset.shows !== name;
    }
}

function whole(field) {
    try {
        return wholeIn(field);
    } catch (error) {
        fault(error.message);
        return undefined;
    }
}

function toggleRun() {
    ask({ do: page.run?.state === "running" ? "pause" : "run" });
}

function step() {
    const items = whole(by("step"));
    if (items) ask({ do: "run", items });
}

function turnTheme() {
    const root = document.documentElement;
    const isDark = (root.dataset.theme ?? (matchMedia("(prefers-color-scheme: dark)").matches ? "dark" : "light")) === "dark";
    root.dataset.theme = isDark ? "light" : "dark";
    for (const it of plots.values()) if (it.frame) it.paint();
    settings.look();
}

by("run").addEventListener("click", toggleRun);
by("again").addEventListener("click", () => ask({ do: "again" }));
by("do-step").addEventListener("click", step);
by("do-to").addEventListener("click", () => {
    const to = whole(by("to"));
    if (Number.isInteger(to)) ask({ do: "run", to });
});
by("rate").addEventListener("change", () => {
    const rate = whole(by("rate"));
    if (rate !== undefined) ask({ do: "rate", rate });
});
by("fire").addEventListener("click", fire);
by("watch").addEventListener("click", () => file.watch(page.chosen));
by("theme").addEventListener("click", turnTheme);
by("smaller").addEventListener("click", () => graphView.zoomTo(graphView.zoom / 1.25));
by("larger").addEventListener("click", () => graphView.zoomTo(graphView.zoom * 1.25));
by("fit").addEventListener("click", () => graphView.fit());
by("controls").addEventListener("submit", (event) => event.preventDefault());
by("tabs").addEventListener("click", (event) => event.target.dataset.shows && showTab(event.target.dataset.shows));

addEventListener("keydown", (event) => {
    const isWritten = event.target.closest?.("input, textarea, select, button, [contenteditable]");
    if (isWritten || event.ctrlKey || event.metaKey || event.altKey) return;
    const does = { " ": toggleRun, s: step, d: turnTheme, p: () => showTab("plots"), f: () => showTab("file") }[event.key];
    if (!does) return;
    event.preventDefault();
    does();
});
