// Creates all elements of the page. Texts from the register become text nodes, never HTML.

const SVG = "http://www.w3.org/2000/svg";
const SVG_ELEMENTS = new Set(["svg", "path", "text", "title", "g", "circle"]);

// Creates an element. Attribute values are the page's own; children are nodes or texts. A key that starts
// with "on" adds a listener.
export function h(name, attributes, ...children) {
  const node = SVG_ELEMENTS.has(name) ? document.createElementNS(SVG, name) : document.createElement(name);
  fill(node, attributes, children);
  return node;
}

// Creates a link inside an SVG drawing, which is a different element from an HTML link.
export function svgLink(attributes, ...children) {
  const node = document.createElementNS(SVG, "a");
  fill(node, attributes, children);
  return node;
}

function fill(node, attributes, children) {
  for (const [key, value] of Object.entries(attributes || {})) {
    if (key.startsWith("on")) node.addEventListener(key.slice(2), value);
    else if (value === true) node.setAttribute(key, "");
    else if (value !== undefined && value !== false && value !== "") node.setAttribute(key, value);
  }
  for (const one of children.flat(Infinity)) {
    if (one !== "" && one !== null && one !== undefined) node.append(one instanceof Node ? one :
      document.createTextNode(String(one)));
  }
}

// Characters that are invisible, change the direction of text, or separate lines. In a name they could
// imitate another name or a line of a title sheet. Line feeds are allowed: they come from the title sheet
// itself, since names cannot contain them.
const INVISIBLE = /(?!\n)[\p{Cc}\p{Cf}\p{Zl}\p{Zp}\p{Default_Ignorable_Code_Point}\u2800]/gu;

const codePoint = (character) => "[U+" + character.codePointAt(0).toString(16).toUpperCase().padStart(4,
  "0") + "]";

// A text of the register with invisible characters escaped, for places without elements: titles, ARIA labels,
// options.
export const safeString = (text) => text.replace(INVISIBLE, codePoint);

// The same as an element, in which the escapes are highlighted.
export function safeText(text) {
  const parts = [];
  let position = 0;
  for (const found of text.matchAll(INVISIBLE)) {
    parts.push(text.slice(position, found.index), h("span", { class: "escaped" }, codePoint(found[0])));
    position = found.index + found[0].length;
  }
  parts.push(text.slice(position));
  return h("bdi", {}, ...parts);
}

// Lets a screen reader announce a text.
export function announce(text) {
  document.getElementById("status").textContent = text;
}

let counter = 0;
// An id that no other element of the page has.
export const newId = (prefix) => prefix + "-" + (counter += 1);
