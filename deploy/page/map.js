// The map of all parcels that the caller sees: a canvas with pan, wheel, pinch and keys, labels, a scale bar
// and north. A click leads to the unit. With the mirror it loads vector tiles; else the parcels that the
// register lists.
import { objectOf, state } from "./api.js";
import { button, hrefOf, lead, pastNotice } from "./components.js";
import { h, safeString, safeText } from "./dom.js";
import { hasMirror } from "./mirror.js";
import { lengthText, roundLength, viewButtons } from "./plan.js";
import { listSource, tileSource } from "./sources.js";
import { readWkt } from "./shape.js";
import { t } from "./words.js";

const LABEL_PIXELS = 26;        // a parcel narrower than this has no label
const LISTED = 40;
const RETRY = 3000;
const MANY = 4000;              // more parcels than this are not drawn again for each movement
const BATCH = 100;              // parcels that are filled together: a path of many is slow
const BAR = 50;                 // pixels that the scale bar takes at the bottom
const COLOURS = { fill: "#d8eadf", here: "#a9d6bd", line: "#1d4e3a", ink: "#1b2420", paper: "#fbfdfc" };

// The last extent, so that the map is where it was when the reader comes back.
let remembered = null;

export async function mapView(number) {
  const found = number && /^\d{1,10}$/.test(number) ? await objectOf("parcels", Number(number)) : null;
  const source = await hasMirror() ? await tileSource() : await listSource();
  const view = createMap(source, found);
  return [t("map.title"), pastNotice(), source.note ? lead(source.note) : "", view];
}

function createMap(source, found) {
  const canvas = h("canvas", { class: "map", tabindex: "0", role: "application", "aria-label": t("map.name"),
    "aria-describedby": "map-keys" });
  const context = canvas.getContext("2d");
  const list = h("ul", { class: "plain columns-list" });
  const status = h("p", { class: "lead", role: "status" });
  const scaleText = h("p", { class: "print-only" });
  let view = null;            // { x, y, k }: the centre in metres, and pixels a metre
  let frame = 0;
  let timer = 0;
  let moving = false;
  let picture = null;         // the view and the number of parcels of the picture that is kept
  const keep = document.createElement("canvas");

  const size = () => [canvas.clientWidth, canvas.clientHeight];
  const toScreen = (x, y) => [(x - view.x) * view.k + size()[0] / 2, (view.y - y) * view.k + size()[1] / 2];
  const toPlane = (px, py) => [(px - size()[0] / 2) / view.k + view.x,
    view.y - (py - size()[1] / 2) / view.k];

  // Shows an extent above the scale bar.
  function fit([west, south, east, north]) {
    const [wide, high] = size();
    const room = Math.max(high - 2 * BAR, high / 2);
    const k = Math.min(wide / Math.max(east - west, 1), room / Math.max(north - south, 1)) * 0.95;
    view = { x: (west + east) / 2, y: (south + north) / 2 - BAR / 2 / k, k };
    schedule();
  }

  const whole = () => fit(source.extent || [0, 0, 100, 100]);

  function boxOfView() {
    const [wide, high] = size();
    const [west, north] = toPlane(0, 0);
    const [east, south] = toPlane(wide, high);
    return [west, south, east, north];
  }

  function schedule() {
    moving = true;
    if (!frame) frame = requestAnimationFrame(draw);
    clearTimeout(timer);
    timer = setTimeout(settle, 250);
  }

  // After a movement: loads missing tiles, and lists the parcels in view.
  async function settle() {
    if (!canvas.isConnected || !view) return;
    remembered = { view: { ...view }, role: state.role };
    moving = false;
    status.textContent = t("loading");
    await source.load(boxOfView(), view.k, schedule0);
    if (!canvas.isConnected) return;
    schedule0();
    showList();
    if (source.missing) timer = setTimeout(settle, RETRY);      // a tile was not answered in time
  }
  const schedule0 = () => { if (!frame) frame = requestAnimationFrame(draw); };

  function draw() {
    frame = 0;
    const [wide, high] = size();
    if (!wide || !view) return;
    const ratio = window.devicePixelRatio || 1;
    if (canvas.width !== Math.round(wide * ratio) || canvas.height !== Math.round(high * ratio)) {
      canvas.width = Math.round(wide * ratio);
      canvas.height = Math.round(high * ratio);
    }
    context.setTransform(ratio, 0, 0, ratio, 0, 0);
    context.fillStyle = COLOURS.paper;
    context.fillRect(0, 0, wide, high);
    if (moving && picture && picture.count > MANY) drawPicture(wide, high);
    else drawParcels();
    if (found) outline(readWkt(found.outline).ring.map((p) => [p[0] / 1000, p[1] / 1000]), 4, COLOURS.ink);
    drawScale(wide, high);
  }

  function drawParcels() {
    const labels = new Map();
    const count = source.sheets(boxOfView(), view.k).reduce((sum, sheet) => sum + drawSheet(sheet, labels),
      0);
    for (const label of labels.values()) drawLabel(label);
    keep.width = canvas.width;
    keep.height = canvas.height;
    keep.getContext("2d").drawImage(canvas, 0, 0);
    picture = { view: { ...view }, count };
  }

  // While a map of many parcels moves, its last picture moves, and is drawn again at the end.
  function drawPicture(wide, high) {
    const k = view.k / picture.view.k;
    const [x, y] = toScreen(picture.view.x, picture.view.y);
    context.drawImage(keep, x - wide * k / 2, y - high * k / 2, wide * k, high * k);
  }

  // Draws a tile, or all parcels of a list, and returns their number. A tile is clipped: its parcels continue
  // in its neighbours.
  function drawSheet({ parcels, box }, labels) {
    context.save();
    if (box) {
      const [x0, y0] = toScreen(box[0], box[3]);
      const [x1, y1] = toScreen(box[2], box[1]);
      context.beginPath();
      context.rect(x0 - 0.5, y0 - 0.5, x1 - x0 + 1, y1 - y0 + 1);
      context.clip();
    }
    const [west, south, east, north] = boxOfView();
    const shown = parcels.filter((p) => p.box[0] <= east && p.box[2] >= west && p.box[1] <= north &&
      p.box[3] >= south);
    context.fillStyle = COLOURS.fill;
    context.strokeStyle = COLOURS.line;
    const pixels = view.k * source.typical;
    context.lineWidth = pixels < 3 ? 0.15 : pixels < 6 ? 0.5 : 1.25;
    for (let n = 0; n < shown.length; n += BATCH) {
      context.beginPath();
      for (const p of shown.slice(n, n + BATCH)) path(p);
      context.fill("evenodd");
      context.stroke();
    }
    context.restore();
    if (view.k * source.typical < LABEL_PIXELS / 2) return shown.length;
    for (const { number, label, box: own } of shown) {
      const known = labels.get(number);
      const least = (n) => Math.min(known.box[n], own[n]);
      const most = (n) => Math.max(known.box[n], own[n]);
      labels.set(number, { label, box: known ? [least(0), least(1), most(2), most(3)] : own });
    }
    return shown.length;
  }

  function path({ rings }) {
    const [wide, high] = size();
    const [dx, dy, k] = [wide / 2 - view.x * view.k, high / 2 + view.y * view.k, view.k];
    for (const ring of rings) {
      for (let n = 0; n < ring.length; n += 2) {
        if (n) context.lineTo(ring[n] * k + dx, dy - ring[n + 1] * k);
        else context.moveTo(ring[0] * k + dx, dy - ring[1] * k);
      }
      context.closePath();
    }
  }

  function outline(points, width, colour) {
    context.beginPath();
    points.forEach((p, n) => context[n ? "lineTo" : "moveTo"](...toScreen(...p)));
    context.closePath();
    context.strokeStyle = colour;
    context.lineWidth = width;
    context.stroke();
  }

  // The label of a parcel. A parcel in several tiles has the box of its pieces together.
  function drawLabel(p) {
    const [x, y] = [(p.box[0] + p.box[2]) / 2, (p.box[1] + p.box[3]) / 2];
    const room = (p.box[2] - p.box[0]) * view.k;
    if (room < LABEL_PIXELS) return;
    const text = safeString([...p.label].slice(0, 14).join(""));
    const points = Math.min(16, room * 1.4 / Math.max(2, text.length));
    if (points < 8) return;
    context.font = `${points.toFixed(0)}px "DejaVu Sans", sans-serif`;
    context.textAlign = "center";
    context.textBaseline = "middle";
    context.lineWidth = 3;
    context.lineJoin = "round";
    context.strokeStyle = COLOURS.paper;
    context.strokeText(text, ...toScreen(x, y));
    context.fillStyle = COLOURS.ink;
    context.fillText(text, ...toScreen(x, y));
  }

  function drawScale(wide, high) {
    const metres = roundLength(wide / view.k / 4);
    const length = metres * view.k;
    context.fillStyle = "rgb(255 255 255 / 85%)";
    context.fillRect(8, high - 46, Math.max(length, 60) + 24, 38);
    context.strokeStyle = COLOURS.ink;
    context.fillStyle = COLOURS.ink;
    context.lineWidth = 2;
    context.beginPath();
    context.moveTo(20, high - 26);
    context.lineTo(20, high - 16);
    context.lineTo(20 + length, high - 16);
    context.lineTo(20 + length, high - 26);
    context.moveTo(wide - 24, high - 14);
    context.lineTo(wide - 24, high - 44);
    context.moveTo(wide - 31, high - 34);
    context.lineTo(wide - 24, high - 44);
    context.lineTo(wide - 17, high - 34);
    context.stroke();
    context.font = '14px "DejaVu Sans", sans-serif';
    context.textAlign = "left";
    context.textBaseline = "alphabetic";
    context.fillText(lengthText(metres), 20, high - 31);
    context.textAlign = "center";
    context.fillText(t("plan.north"), wide - 24, high - 50);
    scaleText.textContent = t("map.scale", { length: lengthText(metres) });
  }

  // ---- the parcel at a place, and the parcels in view

  function parcelAt(px, py) {
    const [x, y] = toPlane(px, py);
    for (const { parcels, box } of source.sheets([x, y, x, y], view.k)) {
      if (box && !(x >= box[0] && x <= box[2] && y >= box[1] && y <= box[3])) continue;
      const hit = parcels.find((p) => p.box[0] <= x && x <= p.box[2] && p.box[1] <= y && y <= p.box[3] &&
        p.rings.some((ring) => inside(ring, x, y)));
      if (hit) return hit;
    }
    return null;
  }

  const hrefOfParcel = (p) => (state.role === "certifiedSurveyor" ? hrefOf("parcels", p.number) :
    hrefOf("units", p.unit));

  function showList() {
    const [west, south, east, north] = boxOfView();
    const seen = new Map();
    for (const { parcels } of source.sheets([west, south, east, north], view.k)) {
      for (const p of parcels) if (p.box[0] <= east && p.box[2] >= west && p.box[1] <= north &&
        p.box[3] >= south) seen.set(p.number, p);
    }
    const all = [...seen.values()];
    status.textContent = t("map.count", { n: all.length }) +
      (source.partial || source.missing ? " " + t("map.partial") : "");
    list.replaceChildren(...all.slice(0, LISTED).map((p) => h("li", {},
      h("a", { href: hrefOfParcel(p) }, t("one.parcels") + " ", safeText(p.label),
      h("span", { class: "num" }, "\u00a0" + p.number)))), all.length > LISTED ? h("li", {}, t("map.more")) :
        "");
  }

  // ---- movement

  function zoomAt(by, px, py) {
    const [x, y] = toPlane(px, py);
    const k = Math.max(1e-5, Math.min(2000, view.k * by));
    const ratio = view.k / k;
    view = { x: x + (view.x - x) * ratio, y: y + (view.y - y) * ratio, k };
    schedule();
  }

  function move(dx, dy) {
    view = { ...view, x: view.x - dx / view.k, y: view.y + dy / view.k };
    schedule();
  }

  const pointers = new Map();
  let moved = 0;
  canvas.addEventListener("pointerdown", (event) => {
    canvas.setPointerCapture(event.pointerId);
    if (pointers.size === 0) moved = 0;
    pointers.set(event.pointerId, [event.offsetX, event.offsetY]);
  });
  canvas.addEventListener("pointermove", (event) => {
    const before = pointers.get(event.pointerId);
    if (!before) {
      canvas.style.cursor = view && parcelAt(event.offsetX, event.offsetY) ? "pointer" : "grab";
      return;
    }
    const now = [event.offsetX, event.offsetY];
    moved += Math.hypot(now[0] - before[0], now[1] - before[1]);
    if (pointers.size === 1) move(now[0] - before[0], now[1] - before[1]);
    else {
      const other = [...pointers].find(([id]) => id !== event.pointerId)[1];
      const by = Math.hypot(now[0] - other[0], now[1] - other[1]) / Math.max(1,
        Math.hypot(before[0] - other[0], before[1] - other[1]));
      zoomAt(by, (now[0] + other[0]) / 2, (now[1] + other[1]) / 2);
    }
    pointers.set(event.pointerId, now);
  });
  const release = (event) => {
    const clicked = pointers.size === 1 && moved < 6 && event.type === "pointerup";
    pointers.delete(event.pointerId);
    const hit = clicked && parcelAt(event.offsetX, event.offsetY);
    if (hit) location.hash = hrefOfParcel(hit);
  };
  canvas.addEventListener("pointerup", release);
  canvas.addEventListener("pointercancel", release);
  canvas.addEventListener("wheel", (event) => {
    event.preventDefault();
    zoomAt(Math.exp(-event.deltaY * (event.deltaMode ? 0.05 : 0.0015)), event.offsetX, event.offsetY);
  }, { passive: false });
  const zoom = (by) => zoomAt(by, size()[0] / 2, size()[1] / 2);
  const steps = { ArrowLeft: [1, 0], ArrowRight: [-1, 0], ArrowUp: [0, 1], ArrowDown: [0, -1] };
  canvas.addEventListener("keydown", (event) => {
    if (steps[event.key]) move(steps[event.key][0] * size()[0] / 5, steps[event.key][1] * size()[1] / 5);
    else if (event.key === "+") zoom(1.5);
    else if (event.key === "-") zoom(1 / 1.5);
    else if (event.key === "0") whole();
    else return;
    event.preventDefault();
  });

  new ResizeObserver(() => {
    if (!size()[0]) return;
    if (view) schedule();
    else if (found) {
      const points = readWkt(found.outline).ring.map((p) => [p[0] / 1000, p[1] / 1000]);
      const [xs, ys] = [points.map((p) => p[0]), points.map((p) => p[1])];
      const by = Math.max(Math.max(...xs) - Math.min(...xs), Math.max(...ys) - Math.min(...ys));
      fit([Math.min(...xs) - by, Math.min(...ys) - by, Math.max(...xs) + by, Math.max(...ys) + by]);
    } else if (remembered && remembered.role === state.role) {
      view = remembered.view;
      schedule();
    } else whole();
  }).observe(canvas);

  const pan = (dx, dy) => move(-dx * size()[0], -dy * size()[1]);
  const tools = viewButtons((by) => zoom(1 / by), pan, whole);
  tools.append(button(t("map.print"), () => window.print()));
  return h("div", { class: "map-view" }, canvas, scaleText, tools,
    h("p", { id: "map-keys", class: "lead no-print" }, t("map.keys")), status,
    h("section", { class: "panel no-print" }, h("h2", {}, t("map.inView")), list));
}

// Whether a place is inside a ring of x, y, x, y ..
function inside(ring, x, y) {
  let odd = false;
  for (let n = 0, m = ring.length - 2; n < ring.length; m = n, n += 2) {
    if ((ring[n + 1] > y) !== (ring[m + 1] > y) && x < (ring[m] - ring[n]) * (y - ring[n + 1]) / (ring[m +
      1] - ring[n + 1]) + ring[n]) odd = !odd;
  }
  return odd;
}
