// The graph file: its text, the graph that it is, and edits of both.

import { Editor } from "./editor.js";
import { element } from "./elements.js";

const PAUSE = 150;
const by = (id) => document.getElementById(id);

export class FilePane {
    /** `ask` asks the server, shows why where it refuses, and gives the answer. `drawn` is called with the graph of the text, whenever it is another, `fed` with
     * a source and a file for it, and `said` with what there is to say. */
    constructor(ask, drawn, fed, said) {
        Object.assign(this, { ask, drawn, fed, said, running: "", saved: "", graph: null });
        this.editor = new Editor(by("editor"), () => this.wait());
        by("undo").addEventListener("click", () => this.editor.undo(-1));
        by("redo").addEventListener("click", () => this.editor.undo(1));
        by("apply").addEventListener("click", () => this.apply());
        by("save").addEventListener("click", () => this.save());
        by("kind").addEventListener("change", () => this.describe());
        by("add").addEventListener("click", () => this.add());
        by("join").addEventListener("click", () => this.join());
        addEventListener("dragover", (event) => event.preventDefault());
        addEventListener("drop", (event) => this.drop(event));
    }

    /** Takes in which text runs. An edited text stays. */
    take(text) {
        const isEdited = this.running !== "" && this.editor.text !== this.running;
        this.running = text;
        if (!isEdited) this.editor.replace(text, this.editor.text === "");
        this.tell();
    }

    takeSaved(text) {
        this.saved = text;
    }

    takeKinds(kinds) {
        this.kinds = new Map(kinds.map((it) => [it.name, it]));
        by("kind").replaceChildren(...kinds.map((it) => element("option", { value: it.name }, it.name)));
        this.describe();
    }

    describe() {
        const kind = this.kinds.get(by("kind").value);
        const rows = Object.entries(kind.parameters).map(([key, says]) => element("tr", {}, element("th", {}, key), element("td", {}, says)));
        by("described").replaceChildren(element("p", {}, kind.equation), element("table", {}, ...rows));
    }

    tell() {
        const runs = this.editor.text === this.running ? "the run is of this text" : "edited: the run is of another text until it is applied";
        by("file-state").textContent = `${runs}; ${this.editor.text === this.saved ? "saved" : "not saved"}`;
        by("undo").disabled = this.editor.place === 0;
        by("redo").disabled = this.editor.place === this.editor.undone.length - 1;
        by("save").disabled = this.editor.text === this.saved;
    }

    wait() {
        this.tell();
        clearTimeout(this.timer);
        this.timer = setTimeout(() => this.look(), PAUSE);
    }

    /** Has the server look at the text, and shows what it finds. */
    async look() {
        const text = this.editor.text;
        const found = await this.ask({ do: "look", text });
        if (!found || text !== this.editor.text) return;
        this.editor.mark(found.fault);
        by("explained").textContent = found.fault ? found.fault.says : "no faults";
        by("explained").classList.toggle("bad", Boolean(found.fault));
        by("old").hidden = Boolean(found.graph);
        if (found.graph) this.show(found.graph);
    }

    show(graph) {
        this.graph = graph;
        for (const [id, has] of [["join-from", (it) => !it.kind.endsWith("_sink")], ["join-to", (it) => it.kind !== "vector_source"]]) {
            const chosen = by(id).value;
            by(id).replaceChildren(...graph.blocks.filter(has).map((it) => element("option", { value: it.name, selected: it.name === chosen }, it.name)));
        }
        this.drawn(graph);
    }

    async edit(what) {
        const text = await this.ask({ ...what, text: this.editor.text });
        if (text !== undefined) this.editor.replace(text);
    }

    /** Begins a run with a sink behind a block. */
    async watch(block) {
        const found = await this.ask({ do: "watch", block, text: this.editor.text });
        if (!found) return;
        if (found.text === this.editor.text) {
            this.said(`${found.sink} shows it`);
            return;
        }
        this.editor.replace(found.text);
        await this.apply();
    }

    add() {
        return this.edit({ do: "add", kind: by("kind").value, type: by("type").value });
    }

    /** Joins two blocks, as a line that is drawn or a form says. */
    connect(connect) {
        return this.edit({ do: "connect", ...connect });
    }

    join() {
        const to = by("join-to").value;
        const taken = new Set(this.graph.connects.filter((it) => it.to === to).map((it) => it.to_port));
        let port = 0;
        while (taken.has(port)) port++;
        return this.connect({ from: by("join-from").value, from_port: Number(by("join-port").value), to, to_port: port });
    }

    async apply() {
        await this.ask({ do: "apply", text: this.editor.text });
    }

    async save() {
        const text = this.editor.text;
        if ((await this.ask({ do: "save", text })) === undefined) return;
        this.saved = text;
        this.tell();
    }

    /** Takes a graph file, or a drawing of Companion, that is dropped on the page, or raw items for the source on which
     * they are dropped. */
    async drop(event) {
        event.preventDefault();
        const file = event.dataTransfer?.files[0];
        if (!file) return;
        const source = event.target.closest?.("[data-block]")?.dataset.block;
        if (source && !/\.(grc|toml)$/.test(file.name)) {
            this.fed(source, file);
            return;
        }
        const text = await file.text();
        if (!file.name.endsWith(".grc")) {
            this.editor.replace(text);
            return;
        }
        const found = await this.ask({ do: "companion", text });
        if (found) this.editor.replace(found.text);
    }
}
