// Outlines in whole millimetres: read and checked as the register does (docs/OUTLINES.md). Coordinates are
// whole numbers below 2^53; products of differences are computed as BigInt, so every test is exact.

const MAX_COORDINATE = 10000000000;
const MAX_POINTS = 201;
const MAX_DOUBLED = 1000000000000000000n;

export const samePoint = (a, b) => a[0] === b[0] && a[1] === b[1];

// The sign of the turn from a over b to c: positive to the left.
function turn(a, b, c) {
  return BigInt(b[0] - a[0]) * BigInt(c[1] - a[1]) - BigInt(b[1] - a[1]) * BigInt(c[0] - a[0]);
}

const between = (v, a, b) => (a < b ? a <= v && v <= b : b <= v && v <= a);
const inBox = (p, a, b) => between(p[0], a[0], b[0]) && between(p[1], a[1], b[1]);

// Whether a point lies on an edge, its ends included.
export const onEdge = (p, a, b) => inBox(p, a, b) && turn(a, b, p) === 0n;

const isInside = (p, a, b) => !samePoint(p, a) && !samePoint(p, b) && onEdge(p, a, b);

// Whether two edges have a common point.
function meet(a, b, c, d) {
  if (Math.max(a[0], b[0]) < Math.min(c[0], d[0]) || Math.max(c[0], d[0]) < Math.min(a[0],
    b[0])) return false;
  if (Math.max(a[1], b[1]) < Math.min(c[1], d[1]) || Math.max(c[1], d[1]) < Math.min(a[1],
    b[1])) return false;
  const [p, q, r, s] = [turn(a, b, c), turn(a, b, d), turn(c, d, a), turn(c, d, b)];
  if (((p > 0n) !== (q > 0n)) && p !== 0n && q !== 0n && ((r > 0n) !== (s > 0n)) && r !== 0n &&
    s !== 0n) return true;
  return onEdge(c, a, b) || onEdge(d, a, b) || onEdge(a, c, d) || onEdge(b, c, d);
}

// Twice the area of a ring: positive if it is counterclockwise.
export function doubledArea(ring) {
  return ring.reduce((sum, a, n) => {
    const b = ring[(n + 1) % ring.length];
    return sum + BigInt(a[0]) * BigInt(b[1]) - BigInt(b[0]) * BigInt(a[1]);
  }, 0n);
}

// Whether no two edges of a ring have a common point, except the common end of neighbours.
function isSimple(ring) {
  const size = ring.length;
  const next = (n) => ring[(n + 1) % size];
  for (let i = 0; i < size; i += 1) {
    if (samePoint(ring[i], next(i))) return false;
    if (turn(ring[i], next(i), next(i + 1)) === 0n && onBack(ring[i], next(i), next(i + 1))) return false;
    for (let j = i + 2; j < size; j += 1) {
      if (i === 0 && j === size - 1) continue;
      if (meet(ring[i], next(i), ring[j], next(j))) return false;
    }
  }
  return doubledArea(ring) !== 0n;
}

// Whether the edge b c, on the line of a b, runs back along it.
const onBack = (a, b, c) => (onEdge(c, a, b) || onEdge(a, b, c)) && !samePoint(b, c);

// Checks listed points, the last equal to the first: { ring } counterclockwise without the last point, or {
// fault }.
export function ringOf(points) {
  if (points.length < 4) return { fault: 116 };
  if (points.length > MAX_POINTS) return { fault: 117 };
  if (!samePoint(points[0], points[points.length - 1])) return { fault: 118 };
  let ring = points.slice(0, -1);
  if (doubledArea(ring) < 0n) ring = [ring[0], ...ring.slice(1).reverse()];
  if (!isSimple(ring)) return { fault: 119 };
  return doubledArea(ring) > MAX_DOUBLED ? { fault: 120 } : { ring };
}

const TOKEN = /[(),]|[^(), \t\r\n]+/g;
const COORDINATE = /^[+-]?\d+(\.0{0,20})?$/;

// Reads well-known text: { ring } or { fault }, the first fault of docs/OUTLINES.md.
export function readWkt(text) {
  const tokens = text.match(TOKEN) || [];
  let spot = 0;
  const take = (token) => tokens[spot] === token && (spot += 1) > 0;
  const head = /^polygon(z|m|zm)?$/i.exec(tokens[spot] || "");
  if (!head) return { fault: 110 };
  spot += 1;
  let tag = head[1];
  if (!tag && /^(z|m|zm)$/i.test(tokens[spot] || "")) {
    tag = tokens[spot];
    spot += 1;
  }
  if (/^empty$/i.test(tokens[spot] || "")) return { fault: spot + 1 === tokens.length ? 111 : 110 };
  const rings = [];
  if (!take("(")) return { fault: 110 };
  do {
    if (!take("(")) return { fault: 110 };
    const points = [];
    do {
      const words = [];
      while (spot < tokens.length && !/^[(),]$/.test(tokens[spot])) words.push(tokens[(spot += 1) - 1]);
      if (words.length < 2 || words.length > 4) return { fault: 110 };
      points.push(words);
    } while (take(","));
    if (!take(")")) return { fault: 110 };
    rings.push(points);
  } while (take(","));
  if (!take(")") || spot !== tokens.length) return { fault: 110 };
  return readRings(rings, tag);
}

function readRings(rings, tag) {
  if (rings.length > 1) return { fault: 112 };
  const words = rings[0].flat();
  if (tag || rings[0].some((point) => point.length > 2)) return { fault: 113 };
  if (!words.every((word) => COORDINATE.test(word))) return { fault: 114 };
  const most = BigInt(MAX_COORDINATE);
  const values = words.map((word) => BigInt(word.replace(/\..*$/, "").replace("+", "")));
  if (values.some((value) => value > most || value < -most)) return { fault: 115 };
  return ringOf(rings[0].map((point) => point.map((word) => Number(word) || 0)));
}

// Reads a polygon of GeoJSON, in metres: { points }, rounded to whole millimetres, and how far it was
// rounded; or { fault }.
export function readGeoJson(value) {
  let found = value;
  if (found && found.type === "FeatureCollection") found = found.features && found.features.length === 1 ?
    found.features[0] : null;
  if (found && found.type === "Feature") found = found.geometry;
  if (found && found.type === "MultiPolygon" && found.coordinates.length === 1) {
    found = { type: "Polygon", coordinates: found.coordinates[0] };
  }
  if (!found || found.type !== "Polygon" || !Array.isArray(found.coordinates)) return { fault: 110 };
  if (found.coordinates.length !== 1) return { fault: found.coordinates.length ? 112 : 111 };
  const points = found.coordinates[0];
  if (points.some((p) => !Array.isArray(p) || !p.slice(0, 2).every(Number.isFinite))) return { fault: 114 };
  if (points.some((p) => p.length > 2)) return { fault: 113 };
  const scaled = points.map((p) => [Math.round(p[0] * 1000) || 0, Math.round(p[1] * 1000) || 0]);
  if (scaled.flat().some((v) => Math.abs(v) > MAX_COORDINATE)) return { fault: 115 };
  return ringOf(scaled);
}

export function wktOf(ring) {
  return "POLYGON ((" + [...ring, ring[0]].map((p) => p.join(" ")).join(", ") + "))";
}

// Whether a point is inside a ring or on its edges.
export function contains(ring, p) {
  let inside = false;
  for (let n = 0; n < ring.length; n += 1) {
    const [a, b] = [ring[n], ring[(n + 1) % ring.length]];
    if (onEdge(p, a, b)) return true;
    if ((a[1] > p[1]) !== (b[1] > p[1]) && (turn(a, b, p) > 0n) === (b[1] > a[1])) inside = !inside;
  }
  return inside;
}

export { isInside };
