// Where the map's parcels come from. A source has `extent` in metres, `load(box, scale, drawn)`, and
// `sheets(box, scale)`: lists of parcels ({ number, unit, label, rings, box }), each with the box of its
// tile, or null.
import { numbersOf, objectOf } from "./api.js";
import { ask, pageOf } from "./mirror.js";
import { settings } from "./settings.js";
import { readWkt } from "./shape.js";
import { parcelsOf } from "./tiles.js";
import { t } from "./words.js";

// The mirror reads at most 20,000 parcels for a tile, some of them only near it. Of a tile with half as many
// the four parts are loaded.
const FULL = 10000;
const TILE_PIXELS = 384;
const DEEPEST = 20;
const MOST_READ = 2000;
const KEPT = 400;

function boxOfRings(rings) {
  const box = [Infinity, Infinity, -Infinity, -Infinity];
  for (const ring of rings) {
    for (let n = 0; n < ring.length; n += 2) {
      box[0] = Math.min(box[0], ring[n]);
      box[1] = Math.min(box[1], ring[n + 1]);
      box[2] = Math.max(box[2], ring[n]);
      box[3] = Math.max(box[3], ring[n + 1]);
    }
  }
  return box;
}

// A parcel of the register, in metres.
function parcelOf(o) {
  const rings = [readWkt(o.outline).ring.flatMap((p) => [p[0] / 1000, p[1] / 1000])];
  return { number: o.number, unit: o.unit, label: o.label, rings, box: boxOfRings(rings) };
}

function extentOf(parcels) {
  if (parcels.length === 0) return null;
  return [0, 1, 2, 3].map((n) => (n < 2 ? Math.min : Math.max)(...parcels.map((p) => p.box[n])));
}

// The width of a usual parcel in metres, by which the map chooses the width of its lines.
function typicalOf(parcels) {
  const widths = parcels.map((p) => p.box[2] - p.box[0]).sort((a, b) => a - b);
  return widths.length ? widths[widths.length >> 1] : 20;
}

// ---- the register's list

export async function listSource() {
  const { numbers } = await numbersOf("parcels");
  const all = numbers || [];
  const found = (await Promise.all(all.slice(0, MOST_READ).map((n) => objectOf("parcels",
    n)))).filter(Boolean).map(parcelOf);
  const note = all.length > MOST_READ ? t("map.first", { n: MOST_READ, total: all.length }) : "";
  return { extent: extentOf(found), typical: typicalOf(found), note, partial: all.length > MOST_READ,
    load: async () => null, sheets: () => [{ parcels: found, box: null }] };
}

// ---- the mirror's tiles

// The extent of the first and the last thousand parcels, which is where the map starts.
async function startParcels() {
  const pages = await Promise.all(["number", "-number"].map((sort) => pageOf("parcels",
    { sort, limit: 1000 })));
  return pages.flatMap((page) => (page ? page.objects : [])).map(parcelOf);
}

export async function tileSource() {
  const { west, north, side } = settings.tiles;
  const tiles = new Map();        // by z/x/y: a list of parcels, "full", or a promise
  const first = await startParcels();
  const boxOf = (z, x, y) => {
    const size = side / 2 ** z;
    return [west + x * size, north - (y + 1) * size, west + (x + 1) * size, north - y * size];
  };
  // A deep zoom would need tiles of a few metres: those of 2 ** DEEPEST are used.
  const zoomOf = (scale) => Math.max(0, Math.min(DEEPEST, Math.round(Math.log2(side * scale / TILE_PIXELS))));

  function place(bytes, z, x, y) {
    const box = boxOf(z, x, y);
    const k = side / 2 ** z / 4096;
    return parcelsOf(bytes).map((p) => {
      const rings = p.rings.map((ring) => ring.map((v, n) => (n % 2 ? box[3] - v * k : box[0] + v * k)));
      return { number: p.number, unit: p.unit, label: String(p.label), rings, box: boxOfRings(rings) };
    });
  }

  async function fetchTile(z, x, y, key) {
    const reply = await ask(`map/tiles/${z}/${x}/${y}`, {}, { binary: true });
    if (reply === null || reply.status !== 200) {
      tiles.delete(key);
      source.missing = true;
      return [];
    }
    const parcels = place(reply.bytes, z, x, y);
    tiles.set(key, parcels.length >= FULL && z < DEEPEST ? "full" : parcels);
    return tiles.get(key);
  }

  // The tiles of a zoom in a box, with the parts of those that are full.
  function cover(box, z) {
    const size = side / 2 ** z;
    const clamp = (v) => Math.max(0, Math.min(2 ** z - 1, Math.floor(v)));
    const found = [];
    for (let x = clamp((box[0] - west) / size); x <= clamp((box[2] - west) / size); x += 1) {
      for (let y = clamp((north - box[3]) / size); y <= clamp((north - box[1]) / size); y += 1) found.push([z,
        x, y]);
    }
    return found;
  }

  async function loadTile([z, x, y], box, drawn) {
    const key = [z, x, y].join("/");
    if (!tiles.has(key)) tiles.set(key, fetchTile(z, x, y, key));
    const found = await tiles.get(key);
    if (found === "full") return Promise.all(parts(z, x, y).map((one) => loadTile(one, box, drawn)));
    drawn();
    return null;
  }

  const parts = (z, x, y) => [0, 1, 2, 3].map((n) => [z + 1, 2 * x + n % 2, 2 * y + (n >> 1)]);

  function sheetsOf([z, x, y]) {
    const found = tiles.get([z, x, y].join("/"));
    if (found === "full") return parts(z, x, y).flatMap(sheetsOf);
    if (Array.isArray(found)) return [{ parcels: found, box: boxOf(z, x, y) }];
    // not loaded yet: the nearest tile above, so that zooming in shows something
    for (let up = 1; up <= 4 && z - up >= 0; up += 1) {
      const above = tiles.get([z - up, x >> up, y >> up].join("/"));
      if (Array.isArray(above)) return [{ parcels: above, box: boxOf(z, x, y) }];
    }
    return [];
  }

  const source = {
    extent: extentOf(first), typical: typicalOf(first), note: "", partial: false, missing: false,
    load: async (box, scale, drawn) => {
      source.missing = false;
      const wanted = cover(box, zoomOf(scale));
      if (tiles.size > KEPT) tiles.clear();
      await Promise.all(wanted.map((one) => loadTile(one, box, drawn)));
    },
    sheets: (box, scale) => cover(box, zoomOf(scale)).flatMap(sheetsOf),
  };
  return source;
}

