// Finds the moments at which the caller's view of a unit changed, without a mirror, since the register has no
// list of them.
import { numbersOf, objectOf, sheetOf } from "./api.js";
import { refersTo } from "./mutations.js";

const STEPS = 64;
const MUTATIONS = 300;

// Requests title sheets at a moment: its text without the date, null if it is not shown, or undefined if the
// request failed.
function reader(number, report) {
  const seen = new Map();
  const read = async (at) => {
    const reply = await sheetOf(number, at);
    if (reply.status === 200) return reply.text.replace(/^At .*$/m, "");
    return reply.status === 403 ? null : undefined;
  };
  return {
    seen,
    at: (moment) => {
      if (!seen.has(moment)) {
        seen.set(moment, read(moment));
        report(seen.size);
      }
      return seen.get(moment);
    },
  };
}

// The moments at which the unit's mutations were lodged, as far as the caller sees them: good places to look
// between.
async function hints(number, last) {
  const { numbers } = await numbersOf("mutations", null);
  const found = await Promise.all((numbers || []).slice(-MUTATIONS).map((n) => objectOf("mutations", n,
    null)));
  return found.filter((o) => o && refersTo(o, number)).map((o) => o.lodged).filter((at) => at < last);
}

// Searches from the newest change back to the first: { found: [{ at, before, after }] newest first, requests,
// failed }. An interval whose two ends are equal has no change, or changes that were undone; so each interval
// is also searched at steps in it.
export async function searchChanges(number, last, report) {
  const found = new Map();
  const list = () => [...found.values()].sort((a, b) => b.at - a.at);
  const sheets = reader(number, (n) => report(n, list()));
  let failed = 0;

  async function between(low, high) {
    const [before, after] = [await sheets.at(low), await sheets.at(high)];
    if (before === undefined || after === undefined) {
      failed += 1;
      return;
    }
    if (before === after) return;
    if (high - low === 1) {
      found.set(high, { at: high, before, after });
      return;
    }
    const middle = low + Math.floor((high - low) / 2);
    await between(middle, high);
    await between(low, middle);
  }

  async function steps(places) {
    const sorted = [...new Set(places)].filter((at) => at >= 0 && at <= last).sort((a, b) => b - a);
    for (let n = 0; n + 1 < sorted.length; n += 1) await between(sorted[n + 1], sorted[n]);
  }

  const lodged = await hints(number, last);
  await steps([last, ...lodged, ...lodged.map((at) => at - 1), 0]);
  if (found.size === 0) await steps([last, await shownBefore(sheets, last), 0]);
  if (found.size) {
    const first = Math.min(...found.keys());
    const even = Array.from({ length: STEPS + 1 }, (_, k) => first + Math.floor((last - first) * k / STEPS));
    await steps([...even, ...found.keys(), ...[...found.keys()].map((at) => at - 1)]);
  }
  return { found: list(), requests: sheets.seen.size, failed };
}

// If the unit is hidden at both ends, a moment at which it was shown: searched for in growing steps back from
// the end, so that a period that lasted a quarter of the time since is found. 0 if there is none.
async function shownBefore(sheets, last) {
  for (let span = 1000; span < last; span *= 1.2) {
    if (await sheets.at(Math.floor(last - span))) return Math.floor(last - span);
  }
  return 0;
}
