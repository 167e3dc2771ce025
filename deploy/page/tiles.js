// Reads vector tiles: the layer of parcels of a tile in the format of Mapbox, which PostGIS writes.

const decoder = new TextDecoder();

// A reader of protocol buffers.
function reader(bytes, start = 0, end = bytes.length) {
  let spot = start;
  const varint = () => {
    let value = 0;
    for (let shift = 1; ; shift *= 128) {
      const byte = bytes[spot];
      spot += 1;
      value += (byte & 127) * shift;
      if (byte < 128) return value;
    }
  };
  // Calls `take(field, value)` for each field: a number, or [start, end] of a chunk.
  const each = (take) => {
    while (spot < end) {
      const tag = varint();
      const kind = tag & 7;
      if (kind === 0) take(tag >> 3, varint());
      else if (kind === 2) {
        const length = varint();
        take(tag >> 3, [spot, spot + length]);
        spot += length;
      } else spot += kind === 5 ? 4 : 8;
    }
  };
  return { varint, each, more: () => spot < end };
}

const unzigzag = (n) => (n % 2 ? -(n + 1) / 2 : n / 2);

function packed(bytes, [start, end]) {
  const source = reader(bytes, start, end);
  const values = [];
  while (source.more()) values.push(source.varint());
  return values;
}

// The rings of a geometry as lists of x, y, x, y ..
function ringsOf(commands) {
  const rings = [];
  let [x, y, n] = [0, 0, 0];
  let ring = null;
  while (n < commands.length) {
    const command = commands[n] & 7;
    let left = commands[n] >> 3;
    n += 1;
    if (command === 7) continue;
    if (command === 1) {
      ring = [];
      rings.push(ring);
    }
    for (; left > 0; left -= 1, n += 2) {
      x += unzigzag(commands[n]);
      y += unzigzag(commands[n + 1]);
      ring.push(x, y);
    }
  }
  return rings;
}

function valueOf(bytes, [start, end]) {
  let value = null;
  reader(bytes, start, end).each((field, found) => {
    if (field === 1) value = decoder.decode(bytes.subarray(...found));
    else if (field === 4 || field === 5) value = found;
    else if (field === 6) value = unzigzag(found);
  });
  return value;
}

// The parcels of a tile: { number, unit, label, rings } with coordinates from 0 to 4096, y down.
export function parcelsOf(bytes) {
  const found = [];
  reader(bytes).each((field, layer) => {
    if (field === 3) found.push(...featuresOf(bytes, layer));
  });
  return found;
}

function featuresOf(bytes, [start, end]) {
  const features = [];
  const keys = [];
  const values = [];
  reader(bytes, start, end).each((field, chunk) => {
    if (field === 2) features.push(chunk);
    else if (field === 3) keys.push(decoder.decode(bytes.subarray(...chunk)));
    else if (field === 4) values.push(valueOf(bytes, chunk));
  });
  return features.map((chunk) => {
    const one = { rings: [] };
    reader(bytes, ...chunk).each((field, found) => {
      if (field === 4) one.rings = ringsOf(packed(bytes, found));
      else if (field === 2) {
        const tags = packed(bytes, found);
        for (let n = 0; n + 1 < tags.length; n += 2) one[keys[tags[n]]] = values[tags[n + 1]];
      }
    });
    return one;
  });
}
