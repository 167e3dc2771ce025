// All undecided mutations that the caller sees, oldest first.
import { numbersOf, objectOf, state } from "./api.js";
import { ask } from "./mirror.js";

const AT_ONCE = 50;
const MOST = 1000;

// Numbers of mutations that were decided. A decision is final, so these are never requested again in this
// session.
const decided = new Set();

// Calls `take(mutation)` for each, and `progress(read, total)`. Returns the list. With the mirror this is one
// request; else every mutation that was not seen decided before is requested.
export async function undecided(take = () => null, progress = () => null) {
  const reply = await ask("undecided", { limit: MOST });
  if (reply && reply.status === 200 && reply.body.undecided.length < MOST) {
    for (const o of reply.body.undecided) await take(o);
    return reply.body.undecided;
  }
  const { numbers } = await numbersOf("mutations");
  const found = [];
  const open = (numbers || []).filter((n) => !decided.has(n));
  for (let n = 0; n < open.length; n += AT_ONCE) {
    const some = await Promise.all(open.slice(n, n + AT_ONCE).map((number) => objectOf("mutations", number)));
    for (const o of some.filter(Boolean)) {
      if (o.state === "lodged") {
        found.push(o);
        await take(o);
      } else if (state.at === null) decided.add(o.number);
    }
    progress(Math.min(n + AT_ONCE, open.length), open.length);
  }
  return found;
}
