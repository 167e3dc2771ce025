// Whether two lists of outlines cover the same ground, by the rule of docs/OUTLINES.md; and the two
// operations on parcels that keep it: cutting one along a line, and joining several.
import { contains, isInside, ringOf, samePoint } from "./shape.js";

const edgesOf = (rings) => rings.flatMap((ring) => ring.map((a, n) => [a, ring[(n + 1) % ring.length]]));
const keyOf = (a, b) => a[0] + " " + a[1] + " " + b[0] + " " + b[1];
const distance = (a, b) => Math.abs(a[0] - b[0]) + Math.abs(a[1] - b[1]);

// The corners of some rings by x, so that those near an edge are found by binary search.
function sortedCorners(rings) {
  const corners = rings.flat().sort((a, b) => a[0] - b[0]);
  const firstAt = (x) => {
    let [low, high] = [0, corners.length];
    while (low < high) {
      const middle = (low + high) >> 1;
      if (corners[middle][0] < x) low = middle + 1;
      else high = middle;
    }
    return low;
  };
  return ([a, b]) => {
    const found = [];
    const end = Math.max(a[0], b[0]);
    for (let n = firstAt(Math.min(a[0], b[0])); n < corners.length && corners[n][0] <= end; n += 1) {
      if (isInside(corners[n], a, b)) found.push(corners[n]);
    }
    return found;
  };
}

// The segments of an edge, cut at the corners that lie inside it.
function segmentsOf(edge, inside) {
  const [a, b] = edge;
  const cuts = inside(edge).sort((p, q) => distance(a, p) - distance(a, q));
  const chain = [a, ...cuts, b];
  return chain.slice(1).map((p, n) => [chain[n], p]).filter(([p, q]) => !samePoint(p, q));
}

// For each directed segment: how often the list has it, less how often it has the reverse one. A segment is
// listed in one direction.
function countsOf(rings, inside) {
  const counts = new Map();
  for (const edge of edgesOf(rings)) {
    for (const [a, b] of segmentsOf(edge, inside)) {
      const forward = a[0] < b[0] || (a[0] === b[0] && a[1] < b[1]);
      const key = forward ? keyOf(a, b) : keyOf(b, a);
      const one = counts.get(key) || { count: 0, segment: forward ? [a, b] : [b, a] };
      one.count += forward ? 1 : -1;
      counts.set(key, one);
    }
  }
  return counts;
}

// Compares two lists of rings: { same, segments }. `segments` are those at which they differ, for a drawing.
export function compareGround(rings, others) {
  const inside = sortedCorners([...rings, ...others]);
  const [one, two] = [countsOf(rings, inside), countsOf(others, inside)];
  const segments = [];
  for (const key of new Set([...one.keys(), ...two.keys()])) {
    const [a, b] = [one.get(key), two.get(key)];
    if ((a ? a.count : 0) !== (b ? b.count : 0)) segments.push((a || b).segment);
  }
  return { same: segments.length === 0, segments };
}

// The ring with a point of its boundary as a corner: [ring, index], or null if the point is not on the
// boundary.
function withCorner(ring, p) {
  const corner = ring.findIndex((one) => samePoint(one, p));
  if (corner >= 0) return [ring, corner];
  const edge = ring.findIndex((a, n) => isInside(p, a, ring[(n + 1) % ring.length]));
  return edge < 0 ? null : [[...ring.slice(0, edge + 1), p, ...ring.slice(edge + 1)], edge + 1];
}

// Cuts a ring along a line whose ends are on its boundary: { rings: [a, b] } or { error: a key of the strings
// }.
export function cut(ring, line) {
  if (line.length < 2) return { error: "draw.short" };
  const [start, end] = [line[0], line[line.length - 1]];
  const first = withCorner(ring, start);
  if (!first) return { error: "draw.startOff" };
  const second = withCorner(first[0], end);
  if (!second) return { error: "draw.endOff" };
  const whole = second[0];
  const from = whole.findIndex((p) => samePoint(p, start));
  const turned = [...whole.slice(from), ...whole.slice(0, from)];
  const to = turned.findIndex((p) => samePoint(p, end));
  if (to === 0) return { error: "draw.closed" };
  const middle = line.slice(1, -1);
  if (!middle.every((p) => contains(ring, p))) return { error: "draw.leaves" };
  const sides = [[...turned.slice(0, to + 1), ...middle.slice().reverse()],
    [...turned.slice(to), turned[0], ...middle]];
  const checked = sides.map((side) => ringOf([...side, side[0]]));
  if (checked.some((one) => one.fault)) return { error: "draw.crosses" };
  const rings = checked.map((one) => one.ring);
  return compareGround(rings, [ring]).same ? { rings } : { error: "draw.leaves" };
}

// The corners of a ring without those in the middle of a straight line.
function straightened(ring) {
  return ring.filter((p, n) => !isInside(p, ring[(n + ring.length - 1) % ring.length],
    ring[(n + 1) % ring.length]));
}

// Joins rings that touch along edges: { ring } or { error }.
export function join(rings) {
  const counts = countsOf(rings, sortedCorners(rings));
  const next = new Map();
  for (const { count, segment: [a, b] } of counts.values()) {
    if (Math.abs(count) > 1) return { error: "draw.overlap" };
    if (count === 0) continue;
    const [from, to] = count > 0 ? [a, b] : [b, a];
    if (next.has(from.join(" "))) return { error: "draw.corner" };
    next.set(from.join(" "), to);
  }
  if (next.size === 0) return { error: "draw.nothing" };
  const start = next.keys().next().value;
  const ring = [];
  for (let key = start; ;) {
    const p = next.get(key);
    if (!p) return { error: "draw.overlap" };
    ring.push(p);
    key = p.join(" ");
    if (key === start) break;
    if (ring.length > next.size) return { error: "draw.corner" };
  }
  if (ring.length !== next.size) return { error: "draw.apart" };
  const short = straightened(ring);
  const checked = ringOf([...short, short[0]]);
  if (checked.fault) return { error: "fault." + checked.fault };
  return compareGround([checked.ring], rings).same ? checked : { error: "draw.overlap" };
}

// The point with whole coordinates on an edge that is nearest to a place. An edge has such points only at
// multiples of its smallest step.
function nearestOnEdge([x, y], a, b) {
  const [dx, dy] = [b[0] - a[0], b[1] - a[1]];
  const steps = Number(greatest(BigInt(Math.abs(dx)), BigInt(Math.abs(dy))));
  const along = ((x - a[0]) * dx + (y - a[1]) * dy) / (dx * dx + dy * dy);
  const n = Math.max(0, Math.min(steps, Math.round(along * steps)));
  return [a[0] + dx / steps * n, a[1] + dy / steps * n];
}

const greatest = (a, b) => (b === 0n ? a : greatest(b, a % b));

// Snaps a place to the nearest corner, else to the nearest whole point of an edge, within a tolerance; else
// to whole millimetres.
export function snap(place, rings, tolerance) {
  const near = (p) => Math.hypot(p[0] - place[0], p[1] - place[1]);
  const best = (list) => list.reduce((a, b) => (a === null || near(b) < near(a) ? b : a), null);
  const corner = best(rings.flat());
  if (corner && near(corner) <= tolerance) return { point: corner, on: "corner" };
  const edge = best(edgesOf(rings).map(([a, b]) => nearestOnEdge(place, a, b)));
  if (edge && near(edge) <= tolerance) return { point: edge, on: "edge" };
  return { point: place.map(Math.round), on: "free" };
}
