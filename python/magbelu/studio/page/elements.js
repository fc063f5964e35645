// Makes elements. Every text goes in as text, never as markup.

const SVG = "http://www.w3.org/2000/svg";

function filled(it, attributes, children) {
    for (const [key, value] of Object.entries(attributes)) {
        if (key.startsWith("on")) it.addEventListener(key.slice(2), value);
        else if (value !== undefined && value !== null && value !== false) it.setAttribute(key, value === true ? "" : String(value));
    }
    it.append(...children.filter((child) => child !== null && child !== undefined));
    return it;
}

/** An element of HTML. */
export const element = (name, attributes = {}, ...children) => filled(document.createElement(name), attributes, children);

/** An element of SVG. */
export const drawn = (name, attributes = {}, ...children) => filled(document.createElementNS(SVG, name), attributes, children);

/** A whole number as people read it. */
export const grouped = (number) => String(number).replace(/\B(?=(\d{3})+(?!\d))/g, ",");

/** A count a second in few letters. */
export function brief(number) {
    const [unit, sign] = [[1e9, " G"], [1e6, " M"], [1e3, " k"]].find(([least]) => number >= 10 * least) ?? [1, ""];
    return `${(number / unit).toFixed(number / unit < 100 && number % unit ? 1 : 0)}${sign}/s`;
}

/** The whole number in a field, or null where it is empty. */
export function wholeIn(field) {
    const text = field.value.replaceAll(",", "").trim();
    if (text === "") return null;
    if (!/^\d+$/.test(text)) throw new Error(`${text} is no whole number`);
    return Number(text);
}
