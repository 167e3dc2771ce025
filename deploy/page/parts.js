// The parts of a subdivision: drawn over the old parcel by cutting it along lines, or pasted. Each part has a
// label, and stays in the unit or becomes a new one. The match with the old parcel is checked before lodging,
// by the register's rule.
import { board, boxOf, metresText, pointsInput, readPoints } from "./draw.js";
import { button, table } from "./components.js";
import { h, newId, safeString } from "./dom.js";
import { squareMetres } from "./format.js";
import { compareGround, cut } from "./ground.js";
import { readGeoJson, readWkt, wktOf, doubledArea } from "./shape.js";
import { t } from "./words.js";

const letters = (n) => String.fromCharCode(97 + n);

// The outlines in a text: lines of well-known text, or GeoJSON. { rings } or { fault }.
export function readOutlines(text) {
  const words = text.trim();
  if (words.startsWith("{")) {
    let value;
    try {
      value = JSON.parse(words);
    } catch {
      return { fault: 110 };
    }
    const list = value.type === "FeatureCollection" && Array.isArray(value.features) ? value.features :
      [value];
    const read = list.map((one) => readGeoJson(one));
    const wrong = read.find((one) => one.fault);
    return wrong || { rings: read.map((one) => one.ring) };
  }
  const read = words.split(/(?<=\)\s*\))[\s;,]*(?=polygon)/i).map(readWkt);
  const wrong = read.find((one) => one.fault);
  return wrong || { rings: read.map((one) => one.ring) };
}

export function partsField() {
  const key = "parts";
  const error = h("p", { class: "field-error", id: newId(key) });
  const body = h("div", {});
  const node = h("fieldset", { class: "group", "data-key": key, tabindex: "-1" },
    h("legend", {}, t("content.parts")), body, error);
  node.addEventListener("input", () => { error.textContent = ""; });
  let parcel = null;
  let old = null;
  let parts = [];
  let line = [];
  let undo = [];
  let drawing = null;
  let points = null;
  let marks = [];
  const status = h("p", { class: "picked", role: "status" });
  const grid = h("div", {});

  function load(next) {
    parcel = next;
    error.textContent = "";
    if (!parcel) return body.replaceChildren(h("p", { class: "lead" }, t("field.parcelFirst")));
    old = readWkt(parcel.outline).ring;
    undo = [];
    line = [];
    parts = [{ ring: old, label: parcel.label, unit: "", stays: true }];
    points = pointsInput(newId("points"), (found) => {
      line = found;
      show();
    });
    drawing = board({ box: boxOf([old]), label: t("draw.board"), onpoint: (p, on) => {
      line = [...line, p];
      points.input.value = line.map(metresText).join("; ");
      show();
      status.textContent = t("draw.snapped." + on, { point: metresText(p) });
      if (line.length > 1 && on !== "free") tryCut();
    } });
    const paste = h("textarea", { rows: "3", id: newId("paste") });
    body.replaceChildren(h("p", { class: "help" }, t("draw.help")), drawing.node,
      h("div", { class: "tools" }, h("span", { class: "labelled wide" }, points.label, points.input),
        button(t("draw.cut"), () => tryCut(true)),
        button(t("draw.undo"), back), button(t("draw.restart"), () => load(parcel))), status, grid,
      h("details", {}, h("summary", {}, t("draw.paste")), h("p", { class: "help" }, t("draw.pasteHelp")),
        h("label", { for: paste.id }, t("draw.pasted")), paste,
        h("p", { class: "tools" }, button(t("draw.take"), () => take(paste.value)))));
    return show();
  }

  function back() {
    if (line.length) line = line.slice(0, -1);
    else if (undo.length) parts = undo.pop();
    points.input.value = line.map(metresText).join("; ");
    show();
  }

  // Cuts the part that the line crosses. A line that does not yet end on the boundary stays as it is, unless
  // the user pressed the button.
  function tryCut(pressed = false) {
    if (pressed) line = readPoints(points.input.value) || line;
    let reason = "draw.short";
    for (const part of parts) {
      const result = cut(part.ring, line);
      if (result.rings) {
        undo.push(parts);
        parts = parts.flatMap((one) => (one !== part ? [one] :
          result.rings.map((ring, n) => ({ ...one, ring, stays: n === 0 && one.stays, unit: "" }))));
        relabel();
        line = [];
        points.input.value = "";
        status.textContent = t("draw.parts", { n: parts.length });
        return show();
      }
      if (!["draw.startOff", "draw.endOff"].includes(result.error)) reason = result.error;
    }
    if (pressed) status.textContent = t(reason === "draw.short" ? "draw.ends" : reason);
    return show();
  }

  const relabel = () => parts.forEach((part, n) => { part.label = [...parcel.label].slice(0, 38).join("") +
    letters(n); });

  function take(text) {
    const found = readOutlines(text);
    if (found.fault) {
      status.textContent = t("fault." + found.fault);
      return;
    }
    undo.push(parts);
    parts = found.rings.map((ring, n) => ({ ring, label: "", unit: "", stays: n === 0 }));
    relabel();
    status.textContent = t("draw.parts", { n: parts.length });
    show();
  }

  function show() {
    const match = parts.length > 1 ? compareGround(parts.map((p) => p.ring), [old]) :
      { same: true, segments: [] };
    marks = match.segments;
    drawing.draw({ shapes: [{ ring: old, mark: "old" }, ...parts.map((p,
      n) => ({ ring: p.ring, label: p.label, mark: n % 2 ? "odd" : "here" }))], line, marks });
    const row = (part, n) => {
      const label = h("input", { type: "text", "data-part": "label", value: part.label, class: "short",
        "aria-label": t("draw.labelOf", { n: n + 1 }), oninput: () => { part.label = label.value; } });
      const unit = h("input", { type: "text", "data-part": "unit", value: part.unit,
        placeholder: t("draw.unitName"), "aria-label": t("draw.unitOf", { n: n + 1 }), hidden: part.stays,
        oninput: () => { part.unit = unit.value; } });
      const where = h("select", { "data-part": "where", "aria-label": t("draw.whereOf", { n: n + 1 }),
        onchange: () => {
        part.stays = where.value === "stays";
        unit.hidden = part.stays;
        if (!part.stays) unit.focus();
      } }, h("option", { value: "stays" }, t("draw.stays")), h("option", { value: "new" }, t("draw.new")));
      where.value = part.stays ? "stays" : "new";
      return [String(n + 1), label, squareMetres(doubledArea(part.ring)) + " m²", [where, " ", unit]];
    };
    grid.replaceChildren(table(parts.length > 1 ? t(match.same ? "draw.matches" : "fault.match") :
      t("draw.notCut"),
      [t("draw.part"), t("col.label"), t("col.area"), t("draw.where")], parts.map(row), "parts"));
    return undefined;
  }

  function fault() {
    if (!parcel) return t("field.parcelFirst");
    if (parts.length < 2) return t("draw.notCut");
    if (parts.length > 16) return t("draw.many");
    const listed = parts.find((p) => p.ring.length > 200);
    if (listed) return t("fault.117");
    if (!compareGround(parts.map((p) => p.ring), [old]).same) return t("refusal.220");
    if (parts.some((p) => p.label.trim() === "" || [...p.label.trim()].length > 40)) return t("draw.noLabel");
    if (!parts.some((p) => p.stays)) return t("draw.noneStays");
    return parts.some((p) => !p.stays && p.unit.trim() === "") ? t("draw.noUnit") : "";
  }

  // The first part that stays is the first; the others keep their order.
  function read() {
    const first = parts.find((p) => p.stays);
    const part = (p) => ({ label: p.label.trim(), outline: wktOf(p.ring),
      ...(p.stays ? {} : { unit: p.unit.trim() }) });
    return { first: part(first), rest: parts.filter((p) => p !== first).map(part) };
  }
  load(null);
  return { key, node, load, read, check: async () => {
    const text = fault();
    error.textContent = text;
    return text ? [{ label: t("content.parts"), text: safeString(text), focus: () => node.focus() }] : [];
  } };
}
