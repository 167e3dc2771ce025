// The mirror's read gateway: search, history, map, lists with contents. The page works without it.
import { send, state } from "./api.js";
import { settings } from "./settings.js";

const RETRY_AFTER = 30000;
// Replies of a mirror that works, but could not answer this request.
const PASSING = ["behind", "busy", "timeout"];
let probe = null;
let lostAt = 0;

async function answers() {
  if (!settings.mirror) return false;
  const reply = await send(settings.mirror + "/state");
  return reply.status === 200 && reply.body !== null && Array.isArray(reply.body.mirrors);
}

// Whether a mirror is configured and answers. Asked once, and again some time after it was lost.
export function hasMirror() {
  if (probe === null || (lostAt && Date.now() - lostAt > RETRY_AFTER)) {
    lostAt = 0;
    probe = answers();
  }
  return probe;
}

// Requests a path of the mirror. Returns the reply (200, 400 or 403), or null if there is no mirror or it
// cannot answer. After an act it waits for the state with the act.
export async function ask(path, parameters = {}, { at = state.at, binary = false } = {}) {
  if (!await hasMirror()) return null;
  const words = new URLSearchParams(parameters);
  if (at !== null) words.set("at", at);
  else if (state.stamp) words.set("after", state.stamp);
  const query = String(words);
  const reply = await send(settings.mirror + "/" + path + (query ? "?" + query : ""), undefined, { binary });
  if (reply.status === 200 || (reply.body && (reply.body.denied || reply.body.fault))) return reply;
  if (!(reply.body && PASSING.includes(reply.body.mirror))) {
    lostAt = Date.now();
    probe = Promise.resolve(false);
  }
  return null;
}

// A page of objects with their contents: { objects, more }, or null without a mirror.
export async function pageOf(kind, parameters) {
  const reply = await ask("objects/" + kind, parameters);
  return reply && reply.status === 200 ? reply.body : null;
}

const PAGE = 1000;
// All objects of a kind that match, up to a limit: { objects, more }, or null without a mirror.
export async function allOf(kind, parameters, most = 10000) {
  const objects = [];
  for (let skip = 0; ; skip += PAGE) {
    const page = await pageOf(kind, { ...parameters, limit: PAGE, skip });
    if (page === null) return null;
    objects.push(...page.objects);
    if (!page.more || objects.length >= most) return { objects, more: page.more };
  }
}
