// Signing out, and the end of a session without activity. The browser keeps a password until it gets another
// one for the same site: signing out gives it that of a user who may do nothing.
import { state } from "./api.js";
import { ask } from "./dialogs.js";
import { h } from "./dom.js";
import { settings } from "./settings.js";
import { t } from "./words.js";

const MINUTE = 60000;
const NOBODY = "signed-out";
let lastAct = Date.now();
let unsaved = () => false;
let warning = false;

// The form that is being filled in says whether leaving it loses work.
export function guard(isUnsaved) {
  unsaved = isUnsaved;
}

export const hasUnsaved = () => unsaved();

export async function confirmLeave() {
  if (!unsaved()) return true;
  const answer = await ask(t("leave.title"), [h("p", {}, t("leave.text"))],
    [["stay", t("leave.stay"), true], ["leave", t("leave.leave")]]);
  if (answer !== "leave") return false;
  guard(() => false);
  return true;
}

// Replaces the password that the browser has stored for this site.
function forgetPassword() {
  return new Promise((done) => {
    const request = new XMLHttpRequest();
    request.open("GET", new URL("signout", location.href.split("#")[0]), true, NOBODY, NOBODY);
    request.onloadend = done;
    request.send();
  });
}

export async function signOut() {
  guard(() => false);
  state.signedOut = true;
  document.getElementById("main").replaceChildren();
  await forgetPassword();
  tabs.postMessage("out");
  leave();
}

async function warn() {
  warning = true;
  const left = h("p", {}, t("session.text", { n: settings.warnMinutes }), unsaved() ? " " +
    t("session.unsaved") : "");
  const timer = setTimeout(signOut, settings.warnMinutes * MINUTE);
  const answer = await ask(t("session.title"), [left], [["stay", t("session.stay"), true],
    ["out", t("session.out")]]);
  clearTimeout(timer);
  warning = false;
  lastAct = Date.now();
  if (answer === "out") signOut();
}

// The tabs of a browser share a password: they report activity and the end of the session to each other.
const tabs = new BroadcastChannel("land");
let reported = 0;

function note() {
  lastAct = Date.now();
  if (lastAct - reported < 2000) return;
  reported = lastAct;
  tabs.postMessage("active");
}

function leave() {
  guard(() => false);
  state.signedOut = true;
  document.getElementById("main").replaceChildren();
  location.replace("signedout.html");
}

export function watchSession() {
  tabs.onmessage = ({ data }) => {
    lastAct = Date.now();
    if (data === "out") leave();
    else if (warning) document.querySelector("dialog[open]").close("stay");
  };
  for (const name of ["keydown", "pointerdown", "wheel"]) window.addEventListener(name, note,
    { passive: true });
  window.addEventListener("beforeunload", (event) => {
    if (unsaved() && !state.signedOut) event.preventDefault();
  });
  setInterval(() => {
    const idle = Date.now() - lastAct;
    if (!warning && idle > (settings.idleMinutes - settings.warnMinutes) * MINUTE) warn();
  }, Math.min(5000, settings.idleMinutes * MINUTE / 10));
}
