// Sends requests to the register. All requests of the page go through this module.

export const state = { role: "citizen", at: null, me: null, roles: null, name: null, clock: 0, stamp: 0,
  signedOut: false };
const base = new URL(".", location.href.split("#")[0]);
const MAX_CONCURRENT = 6;
const MAX_TRIES = 12;

let running = 0;
const waiting = [];

async function acquireSlot() {
  if (running < MAX_CONCURRENT) running += 1;
  else await new Promise((go) => waiting.push(go));
}

function releaseSlot() {
  const next = waiting.shift();
  if (next) next();
  else running -= 1;
}

const sleep = (ms) => new Promise((go) => setTimeout(go, ms));

// Repeats a request that the rate limit rejected (429): the gateway did not forward it.
async function fetchWithRetry(url, options) {
  let reply = await fetch(url, options);
  for (let n = 1; reply.status === 429 && n < MAX_TRIES; n += 1) {
    await sleep(250 * n);
    reply = await fetch(url, options);
  }
  return reply;
}

function parseJson(reply, text) {
  if (!(reply.headers.get("Content-Type") || "").includes("json")) return null;
  try {
    return JSON.parse(text);
  } catch {
    return null;
  }
}

async function contentOf(reply, binary) {
  if (binary) return { bytes: new Uint8Array(await reply.arrayBuffer()), text: "", body: null };
  const text = await reply.text();
  return { text, body: parseJson(reply, text) };
}

// Sends one request and returns { status, body, text }. Status 599: no reply.
export async function send(path, body, { role = state.role, binary = false } = {}) {
  if (state.signedOut) return { status: 401, body: null, text: "" };
  await acquireSlot();
  try {
    const options = { headers: { "Register-Role": role }, cache: "no-store", credentials: "same-origin" };
    if (body !== undefined) {
      options.method = "POST";
      options.headers["Content-Type"] = "application/json";
      options.body = JSON.stringify(body);
    }
    const reply = await fetchWithRetry(new URL(path, base), options);
    state.me = Number(reply.headers.get("Register-Party")) || state.me;
    state.clock = Date.parse(reply.headers.get("Date")) || state.clock;
    const content = await contentOf(reply, binary && reply.status === 200);
    if (body !== undefined && reply.status === 200 && content.body) {
      state.stamp = Math.max(state.stamp, content.body.stamp);
      forget();
    }
    return { status: reply.status, ...content };
  } catch {
    return { status: 599, body: null, text: "" };
  } finally {
    releaseSlot();
  }
}

export const get = (path, at = state.at) => send(at === null ? path : path + "?at=" + at);
export const sheetOf = (unit, at = state.at) => get("units/" + unit + "/sheet", at);

// Lists a kind: { numbers, reply }. `numbers` is null if the reply is an error.
export async function numbersOf(kind, at = state.at) {
  const reply = await get(kind, at);
  return { numbers: reply.status === 200 ? reply.body.numbers : null, reply };
}

// Objects of the view that is being rendered, so that a party that occurs ten times is requested once.
let seen = new Map();
export const forget = () => { seen = new Map(); };

// Returns an object, or null if the caller may not see it.
export function objectOf(kind, number, at = state.at) {
  const key = [state.role, at, kind, number].join(" ");
  if (!seen.has(key)) {
    seen.set(key, get(kind + "/" + number, at).then((reply) => (reply.status === 200 ? reply.body.object :
      null)));
  }
  return seen.get(key);
}

export const ROLES = ["stateAdministrator", "notary", "bank", "certifiedSurveyor", "conveyancer", "citizen"];

// Finds out which party the caller is and which roles it holds. The reply to any request names the party; in
// a role that it holds, the register shows the party its roles.
export async function signIn() {
  if (state.me === null) await send("parties/1", undefined, { role: "citizen" });
  if (state.me === null) return;
  for (const role of ["citizen", ...ROLES.slice(0, -1)]) {
    const reply = await send("parties/" + state.me, undefined, { role });
    if (reply.status === 200) {
      state.roles = reply.body.object.roles;
      state.name = reply.body.object.name;
      return;
    }
    if (reply.status !== 403) return;
  }
}

// The role to start with: the first of the professions that the party holds.
export const firstRole = () => ROLES.find((role) => state.roles && state.roles.includes(role)) || "citizen";
