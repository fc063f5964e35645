// No browser starts a worker from a file, nor has a script read another file: where the pages are read without a
// server, what search/main.js takes for its worker is none, and the index comes as a script.
if (location.protocol === "file:") {
    window.Worker = class {
        constructor(path) {
            const folder = path.replace(/[^/]*$/, "");
            const add = ([name, ...others]) => {
                const script = document.createElement("script");
                script.src = folder + name;
                script.onload = () => (others.length ? add(others) : begin(manual_index).forEach((it) => this.onmessage({ data: it })));
                document.head.appendChild(script);
            };
            add(["lunr.js", "search_index.js", "worker.js"]);
        }

        postMessage(message) {
            if (message.query) {
                this.onmessage({ data: { results: search(message.query) } });
            }
        }
    };
}
