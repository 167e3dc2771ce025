// A field for the outline of a new parcel: drawn, pasted as well-known text or as points, or read from a file
// of GeoJSON.
import { objectOf } from "./api.js";
import { board, boxOf, metresText, readPoints } from "./draw.js";
import { button } from "./components.js";
import { combo } from "./combo.js";
import { h, newId } from "./dom.js";
import { field } from "./form.js";
import { squareMetres } from "./format.js";
import { ask } from "./mirror.js";
import { doubledArea, readGeoJson, readWkt, ringOf, samePoint, wktOf } from "./shape.js";
import { readOutlines } from "./parts.js";
import { t } from "./words.js";

// Reads the text of the field: { ring } or { fault }. Points are in metres, the others as in
// docs/OUTLINES.md.
function readAny(text) {
  const words = text.trim();
  if (/^[-\d]/.test(words)) {
    const points = readPoints(words);
    if (!points) return { fault: 114 };
    const closed = points.length > 1 && samePoint(points[0], points[points.length - 1]) ? points :
      [...points, points[0]];
    return ringOf(closed);
  }
  const found = readOutlines(words);
  if (found.fault) return found;
  return found.rings.length === 1 ? { ring: found.rings[0] } : { fault: 112 };
}

// `others()` returns the other outline fields of the form, whose rings are shown in the drawing.
export function outlineField({ others = () => [], value = "" }) {
  const input = h("textarea", { name: "outline", rows: "2", spellcheck: "false",
    placeholder: "POLYGON ((0 0, 20000 0, 20000 15000, 0 15000, 0 0))" });
  const echo = h("p", { class: "picked", role: "status" });
  const place = h("div", {});
  const file = h("input", { type: "file", accept: ".geojson,.json,.wkt,.txt", id: newId("file"),
    onchange: async () => {
    if (!file.files[0]) return;
    input.value = (await file.files[0].text()).trim();
    update();
  } });

  function update() {
    const words = input.value.trim();
    const found = words ? readAny(words) : {};
    echo.textContent = found.ring ? squareMetres(doubledArea(found.ring)) + " m²" : "";
  }
  input.addEventListener("input", update);
  const ring = () => readAny(input.value).ring || null;
  const read = () => (ring() ? wktOf(ring()) : input.value.trim());
  const check = async () => {
    if (input.value.trim() === "") return t("field.noOutline");
    const { fault } = readAny(input.value);
    return fault ? t("fault." + fault) : "";
  };

  const draw = h("details", { ontoggle: () => {
    if (draw.open && !place.firstChild) place.replaceChildren(drawer(others, ring, (found) => {
      input.value = wktOf(found);
      update();
    }));
  } }, h("summary", {}, t("draw.draw")), place);
  input.value = value;
  update();
  const made = field({ key: "outline", label: t("col.outline"), input, help: t("field.outlineHelp"), read,
    check,
    extra: [echo, h("p", { class: "tools" }, h("label", { for: file.id }, t("draw.file")), file), draw] });
  return { ...made, ring };
}

// The parcels in a file of GeoJSON: { features: [{ label, outline }] } or { fault }.
export function readFeatures(text) {
  let value;
  try {
    value = JSON.parse(text);
  } catch {
    return { fault: 130 };
  }
  const list = value.type === "FeatureCollection" && Array.isArray(value.features) ? value.features : [value];
  const features = [];
  for (const one of list) {
    const { ring, fault } = readGeoJson(one);
    if (fault) return { fault };
    const named = one.properties || {};
    features.push({ label: String(named.label || named.name || one.id || ""), outline: wktOf(ring) });
  }
  return { features };
}

// The neighbours of a parcel: by the mirror those near it, else only the parcel.
async function neighbours(number) {
  const parcel = await objectOf("parcels", number, null);
  if (!parcel) return [];
  const own = readWkt(parcel.outline).ring;
  const box = boxOf([own], 1).map((v) => (v / 1000).toFixed(3));
  const reply = await ask("map/parcels", { box: box.join(","), limit: 200 }, { at: null });
  if (!reply || reply.status !== 200) return [{ ring: own, label: parcel.label }];
  return reply.body.features.map((one) => {
    const points = one.geometry.coordinates[0].slice(0, -1).map((p) => p.map((v) => Math.round(v * 1000)));
    return { ring: points, label: one.properties.label };
  });
}

// The drawing: corners are clicked, or entered; a click on the first corner closes the outline.
function drawer(others, ring, done) {
  const node = h("div", {});
  let near = [];
  let line = [];
  let paper = null;
  const status = h("p", { class: "picked", role: "status" });
  const box = combo({ kinds: ["parcels"], take: async (item) => {
    near = await neighbours(item.number);
    box.field.value = item.text;
    start();
  }, more: { id: newId("near") } });
  const rings = () => others().map((one) => one.ring && one.ring()).filter(Boolean);

  function close() {
    const found = ringOf([...line, line[0] || [0, 0]]);
    if (found.fault) status.textContent = t("fault." + found.fault);
    else {
      done(found.ring);
      status.textContent = t("draw.taken");
      line = [];
    }
    show();
  }

  function show() {
    const own = ring();
    paper.draw({ line, shapes: [...near.map((one) => ({ ...one, mark: "old" })),
      ...rings().map((one) => ({ ring: one, mark: "old" })),
      ...(own ? [{ ring: own, mark: "here" }] : [])] });
  }

  function start() {
    const all = [...near.map((one) => one.ring), ...rings()];
    paper = board({ box: all.length ? boxOf(all, 0.4) : [0, 0, 100000, 60000], label: t("draw.board"),
      onpoint: (p, on) => {
      if (line.length > 2 && samePoint(p, line[0])) return close();
      line = [...line, p];
      status.textContent = t("draw.snapped." + on, { point: metresText(p) });
      return show();
    } });
    node.replaceChildren(h("p", { class: "help" }, t("draw.ringHelp")),
      h("p", { class: "labelled" }, h("label", { for: box.field.id }, t("draw.near")), box.node), paper.node,
      h("p", { class: "tools" }, button(t("draw.close"), close), button(t("draw.undo"), () => {
        line = line.slice(0, -1);
        show();
      })), status);
    show();
  }
  start();
  return node;
}
