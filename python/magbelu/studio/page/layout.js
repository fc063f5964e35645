// Where the blocks of a graph stand: in columns, each right of those that it reads from, and in a column near these. A
// line that passes over columns has a gap in each.

const GAP_X = 90, GAP_Y = 26, PORT = 16, LINE = 15, LETTER = 7.3, MARGIN = 16, SWEEPS = 8, GAP = 8, MOST_GAPS = 4000;

/** The column of each block: one more than the greatest of those that it reads from. A graph has no loop. */
function columnsOf(blocks, connects) {
    const column = new Map(blocks.map((it) => [it.name, 0]));
    const lacking = new Map(blocks.map((it) => [it.name, 0]));
    for (const it of connects) lacking.set(it.to, lacking.get(it.to) + 1);
    const ready = blocks.filter((it) => lacking.get(it.name) === 0).map((it) => it.name);
    for (const name of ready) {
        for (const it of connects.filter((connect) => connect.from === name)) {
            column.set(it.to, Math.max(column.get(it.to), column.get(name) + 1));
            lacking.set(it.to, lacking.get(it.to) - 1);
            if (lacking.get(it.to) === 0) ready.push(it.to);
        }
    }
    return column;
}

function boxOf(block, connects) {
    // (a port that is not joined yet can be joined by drawing a line)
    const inputs = Math.max(block.kind === "vector_source" ? 0 : 1, ...connects.filter((it) => it.to === block.name).map((it) => it.to_port + 1));
    const outputs = Math.max(block.kind.endsWith("_sink") ? 0 : 1, ...connects.filter((it) => it.from === block.name).map((it) => it.from_port + 1));
    const letters = Math.max(...block.lines.map((it) => it.length));
    const height = Math.max(block.lines.length * LINE + 14, Math.max(inputs, outputs) * PORT + 10);
    return { block, inputs, outputs, width: Math.max(64, letters * LETTER + 20), height, space: GAP_Y, near: [], x: 0, y: 0 };
}

/** The boxes that a line passes on its way, first and last those of its blocks; in the columns between there are
 * gaps. */
function wayOf(connect, boxes, column, columns, isShort) {
    const first = column.get(connect.from), last = column.get(connect.to);
    const way = [boxes.get(connect.from)];
    for (let it = first + 1; it < last && !isShort; it++) {
        const gap = { width: 0, height: GAP, space: GAP, near: [], x: 0, y: 0 };
        columns[it].push(gap);
        way.push(gap);
    }
    way.push(boxes.get(connect.to));
    way.forEach((it, place) => place > 0 && (it.near.push(way[place - 1]), way[place - 1].near.push(it)));
    return way;
}

/** Puts the boxes of each column in the order of the middles of their neighbours, and spreads them so that none
 * overlap. */
function settle(columns) {
    const middle = (it) => it.y + it.height / 2;
    for (let sweep = 0; sweep < SWEEPS; sweep++) {
        for (const boxes of sweep % 2 ? [...columns].reverse() : columns) {
            for (const it of boxes) it.wish = it.near.length ? it.near.reduce((sum, box) => sum + middle(box), 0) / it.near.length : middle(it);
            boxes.sort((a, b) => a.wish - b.wish);
            let y = -Infinity;
            for (const it of boxes) y = (it.y = Math.max(it.wish - it.height / 2, y)) + it.height + it.space;
            const off = boxes.reduce((sum, it) => sum + middle(it) - it.wish, 0) / boxes.length;
            for (const it of boxes) it.y -= off;
        }
    }
}

/** Gives each column its place, and moves all down to the margin; how large the whole is. */
function place(columns) {
    let x = MARGIN;
    for (const boxes of columns) {
        const width = Math.max(...boxes.map((it) => it.width));
        for (const it of boxes) it.x = x + (width - it.width) / 2;
        x += width + GAP_X;
    }
    const all = columns.flat();
    const top = Math.min(...all.map((it) => it.y));
    for (const it of all) it.y += MARGIN - top;
    return { width: Math.max(x - GAP_X + MARGIN, 2 * MARGIN), height: Math.max(0, ...all.map((it) => it.y + it.height)) + MARGIN + LINE };
}

/** The boxes of all blocks by their names, the way of each connection, and the size of the whole. */
export function layout(blocks, connects) {
    const column = columnsOf(blocks, connects);
    const boxes = new Map(blocks.map((it) => [it.name, boxOf(it, connects)]));
    const columns = [];
    for (const it of blocks) (columns[column.get(it.name)] ??= []).push(boxes.get(it.name));
    const gaps = connects.reduce((sum, it) => sum + column.get(it.to) - column.get(it.from) - 1, 0);
    const ways = connects.map((it) => wayOf(it, boxes, column, columns, gaps > MOST_GAPS));
    for (const of of columns) of.reduce((y, it) => (it.y = y) + it.height + it.space, 0);
    settle(columns);
    return { boxes, ways, ...(blocks.length ? place(columns) : { width: 100, height: 60 }) };
}

/** Where the middle of a port stands. */
export function portAt(box, side, port) {
    const count = side === "in" ? box.inputs : box.outputs;
    return { x: side === "in" ? box.x : box.x + box.width, y: box.y + (box.height * (port + 0.5)) / count };
}
