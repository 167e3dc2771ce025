// A drawing board: shows outlines, and takes points. A point snaps to the nearest corner, else to a whole-
// millimetre point of an edge, else to whole millimetres.
import { h, safeString } from "./dom.js";
import { snap } from "./ground.js";
import { labelPosition, viewButtons } from "./plan.js";
import { t } from "./words.js";

const SIZE = 1000;
const NEAR = 14;        // pixels within which a point snaps

const span = (values) => [Math.min(...values), Math.max(...values)];

// Metres of a point, as text.
export const metresText = (p) => p.map((v) => String(v / 1000)).join(" ");

// Points that a user entered, in metres: "5 0; 5 10". Returns millimetres, or null. Decimals may have a point
// or a comma.
export function readPoints(text) {
  const found = text.split(/[;\n]/).map((one) => one.trim()).filter(Boolean).map((one) => one.split(/\s+/));
  const number = /^-?\d+([.,]\d{1,3})?$/;
  if (!found.every((words) => words.length === 2 && words.every((word) => number.test(word)))) return null;
  return found.map((words) => words.map((word) => Math.round(Number(word.replace(",", ".")) * 1000) || 0));
}

// A board: { node, draw }. `draw({ shapes, line, marks })` shows rings ({ ring, label, mark }), the line
// drawn so far, and segments that are wrong. `onpoint(point, on)` is called for each new point. `box`: the
// extent in millimetres [west, south, east, north].
export function board({ box, onpoint, label }) {
  const [west, south, east, north] = box;
  const scale = SIZE / Math.max(east - west, north - south, 1);
  const high = (north - south) * scale;
  const wide = (east - west) * scale;
  const whole = [-60, -60, wide + 120, high + 120];
  let view = whole;
  let snapped = [];
  const layer = h("g", {});
  const hover = h("circle", { class: "hover", r: "0" });
  const svg = h("svg", { class: "plan board", role: "group", "aria-label": label,
    preserveAspectRatio: "xMidYMid meet" }, layer, hover);
  const place = ([x, y]) => [(x - west) * scale, (north - y) * scale];
  const pixel = () => {
    const matrix = svg.getScreenCTM();
    return matrix ? 1 / matrix.a : 1;
  };

  function pointOf(event) {
    const matrix = svg.getScreenCTM().inverse();
    const at = new DOMPoint(event.clientX, event.clientY).matrixTransform(matrix);
    return snap([west + at.x / scale, north - at.y / scale], snapped, NEAR * pixel() / scale);
  }

  function set(next) {
    view = next;
    svg.setAttribute("viewBox", view.join(" "));
  }
  set(whole);

  let held = null;
  svg.addEventListener("pointerdown", (event) => { held = { x: event.clientX, y: event.clientY, view,
    moved: false }; });
  svg.addEventListener("pointermove", (event) => {
    if (held && event.buttons === 1 && (held.moved || Math.hypot(event.clientX - held.x,
      event.clientY - held.y) > 6)) {
      held.moved = true;
      const k = pixel();
      set([held.view[0] - (event.clientX - held.x) * k, held.view[1] - (event.clientY - held.y) * k,
        held.view[2], held.view[3]]);
    } else if (event.pointerType === "mouse") showHover(event);
  });
  svg.addEventListener("pointerup", (event) => {
    if (held && !held.moved) {
      const { point, on } = pointOf(event);
      onpoint(point, on);
    }
    held = null;
  });
  svg.addEventListener("pointercancel", () => { held = null; });

  function showHover(event) {
    const { point, on } = pointOf(event);
    const [x, y] = place(point);
    hover.setAttribute("cx", x);
    hover.setAttribute("cy", y);
    hover.setAttribute("r", on === "free" ? 0 : 9 * pixel());
  }

  const way = (points) => points.map((p) => place(p).map((v) => v.toFixed(2)).join(" ")).join("L");

  function draw({ shapes = [], line = [], marks = [] }) {
    snapped = [...shapes.map((one) => one.ring), ...(line.length > 2 ? [line.slice(0, 1)] :
      [])].filter((ring) => ring.length);
    const nodes = shapes.flatMap(({ ring, label: text, mark }) => {
      const { x, y, room } = labelPosition(ring.map(place));
      const words = text ? safeString([...text].slice(0, 12).join("")) : "";
      const size = Math.min(44, room / 2.5, room * 1.6 / Math.max(1, words.length)).toFixed(1);
      return [h("path", { d: "M" + way(ring) + "Z", class: mark || "" }), words && room > 8 ?
        h("text", { x, y, "font-size": size }, words) : ""];
    });
    const r = String(5 * pixel());
    const wrong = marks.map((segment) => h("path", { class: "wrong-line", d: "M" + way(segment) }));
    const drawn = line.length > 1 ? [h("path", { class: "drawn", d: "M" + way(line) })] : [];
    const points = line.map((p) => h("circle", { cx: place(p)[0], cy: place(p)[1], r, class: "corner" }));
    layer.replaceChildren(...nodes.filter(Boolean), ...wrong, ...drawn, ...points);
  }

  const zoom = (by) => set([view[0] + view[2] * (1 - by) / 2, view[1] + view[3] * (1 - by) / 2, view[2] * by,
    view[3] * by]);
  const move = (dx, dy) => set([view[0] + view[2] * dx, view[1] + view[3] * dy, view[2], view[3]]);
  return { node: h("div", { class: "drawing" }, svg, viewButtons(zoom, move, () => set(whole))), draw };
}

// The extent of some rings, with a margin of a part of their size.
export function boxOf(rings, margin = 0) {
  const [west, east] = span(rings.flat().map((p) => p[0]));
  const [south, north] = span(rings.flat().map((p) => p[1]));
  const by = Math.max(east - west, north - south) * margin;
  return [west - by, south - by, east + by, north + by];
}

// A field for the points of a line, which drawing fills in: the way to draw by keyboard.
export function pointsInput(id, onchange) {
  const input = h("input", { type: "text", id, class: "points", placeholder: "5 0; 5 10",
    spellcheck: "false" });
  input.addEventListener("change", () => {
    const points = readPoints(input.value);
    input.setAttribute("aria-invalid", String(points === null));
    if (points) onchange(points);
  });
  return { input, label: h("label", { for: id }, t("draw.points")) };
}
