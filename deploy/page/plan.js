// Draws outlines as SVG, north up, to scale. Coordinates are whole millimetres; the longer side of the
// drawing has 1000 units.
import { h, svgLink, safeString } from "./dom.js";
import { decimal, squareMetres } from "./format.js";
import { t } from "./words.js";

const SIZE = 1000;
const MARGIN = 60;

// The corners of an outline; the last equals the first.
export function cornersOf(outline) {
  const inner = outline.slice(outline.indexOf("((") + 2, outline.indexOf("))"));
  return inner.split(",").map((point) => point.trim().split(" ").map(BigInt));
}

// The doubled area in square millimetres, exact: the register's number may exceed 2^53, the limit of exact
// numbers in JSON.
export function doubledOf(outline) {
  const corners = cornersOf(outline);
  let doubled = 0n;
  for (let n = 0; n + 1 < corners.length; n += 1) {
    doubled += corners[n][0] * corners[n + 1][1] - corners[n + 1][0] * corners[n][1];
  }
  return doubled < 0n ? -doubled : doubled;
}

export const areaOf = (outline) => squareMetres(doubledOf(outline));

const minOf = (list) => list.reduce((a, b) => (b < a ? b : a));
const maxOf = (list) => list.reduce((a, b) => (b > a ? b : a));

// The mapping from millimetres to units of the drawing.
function scaleOf(drawn) {
  const xs = drawn.flatMap((p) => p.corners.map((c) => c[0]));
  const ys = drawn.flatMap((p) => p.corners.map((c) => c[1]));
  const west = minOf(xs);
  const north = maxOf(ys);
  const wide = Number(maxOf(xs) - west) || 1;
  const high = Number(north - minOf(ys)) || 1;
  const scale = SIZE / Math.max(wide, high);
  return { scale, wide: wide * scale, high: high * scale, at: ([x, y]) => [Number(x - west) * scale,
    Number(north - y) * scale] };
}

// A parcel: its shape, with a text alternative, and its label if there is space.
function drawParcel(p, at) {
  const points = p.corners.slice(0, -1).map(at);
  const label = p.label ? safeString(p.label) : "";
  const words = t(label ? "plan.parcel" : "plan.unlabelled",
    { label, n: String(p.number), area: areaOf(p.outline) });
  const way = "M" + points.map((point) => point.map((c) => c.toFixed(2)).join(" ")).join("L") + "Z";
  const path = h("path", { d: way, class: p.here ? "here" : p.mark || "" }, h("title", {}, words));
  const { x, y, room } = labelPosition(points);
  const short = safeString([...(p.label || String(p.number))].slice(0, 12).join(""));
  const size = Math.min(56, room / 2.2, room * 1.6 / short.length).toFixed(1);
  const text = room > 8 ? h("text", { x, y, "font-size": size, "aria-hidden": "true" }, short) : "";
  return p.href ? svgLink({ href: p.href, "aria-label": words }, path, text) : h("g", {}, path, text);
}

// The largest 1, 2 or 5 times a power of ten that fits.
export function roundLength(length) {
  const power = 10 ** Math.floor(Math.log10(length));
  return [1, 2, 5].map((k) => k * power).filter((k) => k <= length).pop() || power;
}

export const lengthText = (metres) => (metres >= 1 ? decimal(String(metres)) + " m" :
  Math.round(metres * 1000) + " mm");

function drawScaleBar({ scale, wide, high }) {
  const metres = roundLength(wide / scale / 1000 / 2.2);
  const length = metres * 1000 * scale;
  return h("g", { "aria-hidden": "true" }, h("path", { class: "rule",
    d: `M0 ${high + 30}v14h${length}v-14` }),
    h("text", { x: length / 2, y: high + 78, "font-size": 34 }, lengthText(metres)),
    h("path", { class: "rule", d: `M${wide - 14} ${high + 68}v-44m-11 16l11 -16l11 16` }),
    h("text", { x: wide - 40, y: high + 44, "font-size": 34 }, t("plan.north")));
}

// The drawing of some parcels ({ number, label, outline, here, href }), with buttons to pan and zoom as an
// alternative to dragging.
export function plan(parcels) {
  const drawn = parcels.filter((p) => p.outline).map((p) => ({ ...p, corners: cornersOf(p.outline) }));
  if (drawn.length === 0) return h("p", {}, t("plan.nothing"));
  const sizes = scaleOf(drawn);
  const whole = [-MARGIN, -MARGIN, sizes.wide + 2 * MARGIN, sizes.high + 2 * MARGIN + 50];
  const svg = h("svg", { class: "plan", viewBox: whole.join(" "), role: "group",
    "aria-label": t("plan.name", { n: drawn.length }),
    preserveAspectRatio: "xMidYMid meet" },
    ...drawn.map((p) => drawParcel(p, sizes.at)), drawScaleBar(sizes));
  return h("div", { class: "drawing" }, svg, toolbar(svg, whole));
}

function toolbar(svg, whole) {
  let view = whole;
  const set = (next) => {
    view = next;
    svg.setAttribute("viewBox", view.join(" "));
  };
  const zoom = (by) => set([view[0] + view[2] * (1 - by) / 2, view[1] + view[3] * (1 - by) / 2, view[2] * by,
    view[3] * by]);
  const move = (dx, dy) => set([view[0] + view[2] * dx, view[1] + view[3] * dy, view[2], view[3]]);
  drag(svg, () => view, set);
  return viewButtons(zoom, move, () => set(whole));
}

// The buttons of a drawing or a map.
export function viewButtons(zoom, move, all) {
  const one = (text, key, act) => h("button", { type: "button", class: "icon", "aria-label": t(key),
    title: t(key), onclick: act }, text);
  return h("div", { class: "tools no-print", role: "group", "aria-label": t("plan.buttons") },
    one("+", "plan.in", () => zoom(0.6)), one("−", "plan.out", () => zoom(1 / 0.6)),
    one("←", "plan.west", () => move(-0.25, 0)), one("→", "plan.east", () => move(0.25, 0)),
    one("↑", "plan.up", () => move(0, -0.25)), one("↓", "plan.down", () => move(0, 0.25)),
    h("button", { type: "button", onclick: all }, t("plan.all")));
}

// Dragging moves the plan. A vertical swipe on a touch screen scrolls the page (touch-action in land.css).
function drag(svg, view, set) {
  let held = null;
  svg.addEventListener("pointerdown", (event) => { held = { x: event.clientX, y: event.clientY,
    view: view() }; });
  svg.addEventListener("pointermove", (event) => {
    if (!held || event.buttons !== 1) return;
    const k = held.view[2] / svg.clientWidth;
    const [x, y, wide, high] = held.view;
    set([x - (event.clientX - held.x) * k, y - (event.clientY - held.y) * k, wide, high]);
  });
}

// The position of the label: the point of a grid that is farthest inside the outline, and the space around
// it.
export function labelPosition(points) {
  const xs = points.map((s) => s[0]);
  const ys = points.map((s) => s[1]);
  const [x0, x1, y0, y1] = [Math.min(...xs), Math.max(...xs), Math.min(...ys), Math.max(...ys)];
  let best = { x: (x0 + x1) / 2, y: (y0 + y1) / 2, near: -1 };
  for (let i = 1; i < 16; i += 1) {
    for (let j = 1; j < 16; j += 1) {
      const x = x0 + (x1 - x0) * i / 16;
      const y = y0 + (y1 - y0) * j / 16;
      const near = distanceToEdge(points, x, y);
      if (near > best.near) best = { x, y, near };
    }
  }
  return { x: best.x.toFixed(1), y: best.y.toFixed(1), room: best.near * 2 };
}

// The distance of a point from the nearest edge; -1 if it is outside.
function distanceToEdge(points, x, y) {
  let inside = false;
  let near = Infinity;
  for (let n = 0; n < points.length; n += 1) {
    const [a, b] = [points[n], points[(n + 1) % points.length]];
    if ((a[1] > y) !== (b[1] > y) && x < (b[0] - a[0]) * (y - a[1]) / (b[1] - a[1]) + a[0]) inside = !inside;
    const length = (b[0] - a[0]) ** 2 + (b[1] - a[1]) ** 2 || 1;
    const k = Math.max(0, Math.min(1, ((x - a[0]) * (b[0] - a[0]) + (y - a[1]) * (b[1] - a[1])) / length));
    near = Math.min(near, Math.hypot(x - a[0] - k * (b[0] - a[0]), y - a[1] - k * (b[1] - a[1])));
  }
  return inside ? near : -1;
}
