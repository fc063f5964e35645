// The graph, drawn in the page.

import { brief, drawn, element, grouped } from "./elements.js";
import { layout, portAt } from "./layout.js";
import { limitOf, rateOf, shareOf } from "./works.js";

const LEAST_HEIGHT = 120, FILL = 14, SCROLLBAR = 24, MOST_PART = 0.42;
const LEAST_ZOOM = 0.02, READABLE = 0.7, MOST_ZOOM = 3, LINE = 15;
const NOTED = ["value", "factor", "on", "n", "decimation", "interpolation", "to"];

/** The lines in a block's box. */
function linesOf(block) {
    const lines = [block.name, block.kind];
    const taps = block.parameters.taps;
    if (taps) lines.push(`${taps.length} taps`);
    for (const key of NOTED) if (key in block.parameters) lines.push(`${key} ${block.parameters[key]}`);
    return lines;
}

export class GraphView {
    /** `chosen` is called with the name of a block that is chosen, and `joined` with a connection that is drawn from
     * one port to another block. */
    constructor(at, chosen, joined) {
        Object.assign(this, { at, chosen, joined, zoom: 1, blocks: new Map() });
        at.addEventListener("pointerdown", (event) => this.drag(event));
    }

    draw(graph) {
        const blocks = graph.blocks.map((it) => ({ ...it, lines: linesOf(it) }));
        const { boxes, ways, width, height } = layout(blocks, graph.connects);
        this.graph = graph;
        this.size = { width, height };
        this.blocks.clear();
        this.fills = [];
        this.svg = drawn("svg", { role: "group", viewBox: `0 0 ${width} ${height}` });
        graph.connects.forEach((it, number) => this.svg.append(this.line(it, ways[number])));
        for (const box of boxes.values()) this.svg.append(this.box(box));
        this.at.replaceChildren(this.svg);
        // (while a graph is edited it keeps its size)
        if (blocks.length === this.count) this.zoomTo(this.zoom);
        else this.fit(READABLE);
        this.count = blocks.length;
    }

    /** A line from port to port, through the gaps on its way. */
    line(connect, way) {
        const between = way.slice(1, -1).map((it) => ({ x: it.x, y: it.y + it.height / 2 }));
        const points = [portAt(way[0], "out", connect.from_port), ...between, portAt(way.at(-1), "in", connect.to_port)];
        const curves = points.slice(1).map((to, place) => {
            const from = points[place], bend = Math.max(24, (to.x - from.x) / 2);
            return `C${from.x + bend},${from.y} ${to.x - bend},${to.y} ${to.x},${to.y}`;
        });
        const says = `${connect.from} ${connect.from_port} to ${connect.to} ${connect.to_port}: ${connect.type}`;
        const title = drawn("title", {}, says), fill = drawn("path", { class: "fill" });
        this.fills.push({ says, title, fill, end: points.at(-1) });
        return drawn("g", {}, drawn("path", { d: `M${points[0].x},${points[0].y} ${curves.join(" ")}`, class: `line ${connect.type}` }, title), fill);
    }

    box(box) {
        const { block, x, y, width, height } = box;
        const group = drawn("g", { class: "block", tabindex: 0, role: "button", "aria-label": `${block.name}, ${block.kind}` });
        group.dataset.block = block.name;
        group.append(drawn("rect", { x, y, width, height, rx: 5 }));
        const top = y + (height - block.lines.length * LINE) / 2 + 11;
        block.lines.forEach((line, row) =>
            group.append(drawn("text", { x: x + width / 2, y: top + row * LINE, class: row === 0 ? "name" : "" }, line)));
        for (const [side, count] of [["in", box.inputs], ["out", box.outputs]]) {
            for (let port = 0; port < count; port++) {
                const at = portAt(box, side, port);
                group.append(drawn("circle", { cx: at.x, cy: at.y, r: 4, class: "port", "data-side": side, "data-port": port }));
            }
        }
        const note = drawn("text", { x: x + width / 2, y: y + height + 13, class: "note" });
        const share = drawn("path", { class: "share" });
        const mark = drawn("text", { x: x + width / 2, y: y - 5, class: "note mark" }), title = drawn("title");
        group.append(note, mark, share, title);
        group.addEventListener("click", () => this.choose(block.name));
        group.addEventListener("keydown", (event) => event.key === "Enter" && this.choose(block.name));
        this.blocks.set(block.name, { group, note, mark, share, title, box });
        return group;
    }

    /** Draws a line from an output to where it is let go. */
    drag(down) {
        const port = down.target.closest?.(".port[data-side=out]");
        if (!port) return;
        down.preventDefault();
        const from = { from: port.closest("[data-block]").dataset.block, from_port: Number(port.dataset.port) };
        const start = { x: Number(port.getAttribute("cx")), y: Number(port.getAttribute("cy")) };
        const line = drawn("path", { class: "line drawn" });
        this.svg.append(line);
        const move = (event) => {
            const box = this.svg.getBoundingClientRect();
            line.setAttribute("d", `M${start.x},${start.y} L${(event.clientX - box.left) / this.zoom},${(event.clientY - box.top) / this.zoom}`);
        };
        const end = (event) => {
            removeEventListener("pointermove", move);
            line.remove();
            const at = document.elementFromPoint(event.clientX, event.clientY);
            const to = at?.closest("[data-block]")?.dataset.block;
            if (to && to !== from.from) this.joined({ ...from, to, to_port: this.freeInput(to, at.dataset.side === "in" ? Number(at.dataset.port) : 0) });
        };
        addEventListener("pointermove", move);
        addEventListener("pointerup", end, { once: true });
    }

    /** The lowest input of a block from one on that is not joined. */
    freeInput(name, from = 0) {
        const taken = new Set(this.graph.connects.filter((it) => it.to === name).map((it) => it.to_port));
        let port = from;
        while (taken.has(port)) port++;
        return port;
    }

    choose(name) {
        for (const [other, { group }] of this.blocks) group.classList.toggle("chosen", other === name);
        this.chosen(name);
    }

    /** Shows how each block works, for whom it waits, which one limits the run, and how full the buffers get. */
    show(run, rates) {
        const limit = limitOf(run);
        for (const [name, { group, note, mark, share, title, box }] of this.blocks) {
            const [what, port] = run.needs[name] ?? [];
            const rate = rateOf(name, run, rates), part = shareOf(name, run);
            group.dataset.need = what ?? "";
            group.classList.toggle("limits", limit.names.includes(name));
            const wait = this.wait(name, what, port), isMoving = run.state === "running" && rate > 0;
            title.textContent = wait;
            mark.textContent = limit.names.includes(name) ? "limits the run" : "";
            note.textContent = [rate > 0 ? brief(rate) : "", part >= 0.005 ? `${Math.round(100 * part)} %` : "",
                isMoving ? "" : wait].filter(Boolean).join(", ");
            share.setAttribute("d", `M${box.x + 2},${box.y + box.height - 3} h${(part ?? 0) * (box.width - 4)}`);
        }
        this.fills.forEach(({ says, title, fill, end }, number) => {
            const [held, room] = run.works.fills[number] ?? [0, 0];
            title.textContent = room ? `${says}, up to ${grouped(held)} of ${grouped(room)} items in its buffer` : says;
            fill.setAttribute("d", `M${end.x - 8},${end.y + FILL / 2} v${-FILL * (room ? held / room : 0)}`);
        });
    }

    /** For whom a block waits. (Where items come, that is another one all the time: it stands at the pointer alone.) */
    wait(name, what, port) {
        if (what === "feed") return "waits for input";
        if (what === "items") return `waits for ${this.graph.connects.find((it) => it.to === name && it.to_port === port)?.from}`;
        if (what === "room") return `waits for room: ${this.graph.connects.filter((it) => it.from === name && it.from_port === port).map((it) => it.to).join(", ")}`;
        return "";
    }

    /** Gives the graph as much height as it takes, up to a part of the page. It stays so while the graph is edited. */
    settle() {
        this.at.style.height = `${Math.max(LEAST_HEIGHT, Math.min(this.size.height * this.zoom + SCROLLBAR, innerHeight * MOST_PART))}px`;
    }

    /** Shows the whole graph, but for what would be smaller than `least`. */
    fit(least = LEAST_ZOOM) {
        const room = this.at.clientWidth - 4;
        this.zoomTo(Math.max(least, Math.min(1, room / this.size.width)));
    }

    zoomTo(zoom) {
        this.zoom = Math.min(Math.max(zoom, LEAST_ZOOM), MOST_ZOOM);
        this.svg.setAttribute("width", this.size.width * this.zoom);
        this.svg.setAttribute("height", this.size.height * this.zoom);
    }
}

/** What the page says of a block: its parameters, as they stand in the file. */
export function blockTable(block) {
    const rows = Object.entries(block.parameters).map(([key, value]) =>
        element("tr", {}, element("th", {}, key), element("td", {}, Array.isArray(value) ? value.join(" ") : String(value))));
    const fires = block.firings ? `fires ${block.firings === 1 ? "once" : `${grouped(block.firings)} times`} in an iteration` : "";
    return [element("h2", {}, block.name), element("p", {}, block.kind), element("p", { class: "note" }, fires), element("table", {}, ...rows)];
}
