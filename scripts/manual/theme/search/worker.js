// The search, in the place of that of mkdocs, whose search/main.js hands on what is asked. A word counts more in a
// title than in a text, and less in the reference, which is asked for names that nothing else has. Signs part words: so
// `--jobs` asks for jobs, and `set taps` finds `magbelu_set_taps`. It is a worker of search/main.js, or where files.js
// says so a script beside it.
const TITLE_BOOST = 3;
const REFERENCE_BOOST = 0.5;
const MOST_RESULTS = 30;
const SUMMARY_LENGTH = 200;
const documents = new Map();
let index;

// The words of a text, and behind the parts of a name, as of Plant::feed, the whole as one word.
function words(text) {
    return text.replace(/\w+(?:::|_)[\w:]+/g, (name) => name + " " + name.replace(/[:_]/g, "")).replace(/[\W_]+/g, " ");
}

function begin(data) {
    index = lunr(function () {
        this.ref("location");
        this.field("title", { boost: TITLE_BOOST });
        this.field("text");
        for (const it of data.docs) {
            documents.set(it.location, it);
            const boost = it.location.startsWith("reference/") ? REFERENCE_BOOST : 1;
            this.add({ location: it.location, title: words(it.title), text: words(it.text) }, { boost });
        }
    });
    return [{ config: data.config }, { allowSearch: true }];
}

function search(question) {
    const found = index.search(words(question)).slice(0, MOST_RESULTS);
    return found.map((it) => {
        const { location, title, text } = documents.get(it.ref);
        return { location, title, summary: text.substring(0, SUMMARY_LENGTH) };
    });
}

if (typeof importScripts === "function") {
    onmessage = async (message) => {
        if (message.data.init) {
            importScripts("lunr.js");
            const answer = await fetch("search_index.json");
            begin(await answer.json()).forEach((it) => postMessage(it));
        } else if (index) {
            postMessage({ results: search(message.data.query) });
        }
    };
}
