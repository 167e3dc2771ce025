// The entry point of the page: routing, role, time, language. The page shows the register's replies and
// enforces no rules of its own.
import { ROLES, firstRole, forget, signIn, state } from "./api.js";
import { actView } from "./acts.js";
import { KINDS, errorBox, hrefOf, many, queryOf } from "./components.js";
import { h, safeString, safeText } from "./dom.js";
import { listView } from "./lists.js";
import { mapView } from "./map.js";
import { momentFromUrl, momentOfPicker, pickerValue, zoneName, formatMoment } from "./moments.js";
import { objectView, takeNotice } from "./objects.js";
import { setUpSearch } from "./search.js";
import { confirmLeave, hasUnsaved, signOut, watchSession } from "./session.js";
import { startView, titleOf } from "./start.js";
import { unitView } from "./unit.js";
import { LANGUAGES, language, languageName, setLanguage, t } from "./words.js";

const by = (id) => document.getElementById(id);
const main = by("main");
const status = by("status");
const roleField = by("role");
const atField = by("at");
let latest = 0;
let shownHash = null;

// Reads the path and the place in a list from the URL, and sets the role and the time.
function parseLocation() {
  const [path, query] = location.hash.replace(/^#\/?/, "").split("?");
  const parameters = new URLSearchParams(query || "");
  const role = parameters.get("role");
  state.role = ROLES.includes(role) ? role : firstRole();
  state.at = momentFromUrl(parameters.get("at"));
  const from = Number(parameters.get("from"));
  return { way: path ? path.split("/") : ["start"], from: Number.isSafeInteger(from) && from > 0 ? from : 0,
    sort: parameters.get("sort") || undefined };
}

// The view if a reply cannot be displayed.
function failedView(error) {
  console.info(error);
  return [t("app.title"), errorBox({ status: 599, body: null })];
}

// The view for a path: its title and its parts.
async function viewOf([kind, number, ...rest], options) {
  if (kind === "do" && number) return actView(number, rest);
  if (kind === "map") return mapView(number);
  if (KINDS.includes(kind) && number === undefined) return listView(kind, options);
  if (KINDS.includes(kind) && /^\d{1,13}$/.test(number)) return kind === "units" ? unitView(Number(number)) :
    objectView(kind, Number(number));
  return startView();
}

function showTabs(here) {
  const tabs = [["start", titleOf(state.role)], ["map", t("map.tab")],
    ...KINDS.map((kind) => [kind, many(kind)])];
  const tab = ([kind, text]) => h("li", {}, h("a", { href: hrefOf(kind), "aria-current": kind === here ?
    "page" : "" }, text));
  by("tabs").replaceChildren(...tabs.map(tab));
}

// Renders the view of the current URL. After navigation it moves the focus to the content.
async function render(moved) {
  const { way, ...options } = parseLocation();
  const rendering = latest += 1;
  shownHash = location.hash;
  forget();
  roleField.value = state.role;
  atField.value = state.at === null ? "" : pickerValue(state.at);
  showTimeError("");
  by("at-utc").textContent = state.at === null ? "" : formatMoment(state.at) + " UTC";
  showTabs(way[0]);
  status.textContent = t("loading");
  main.setAttribute("aria-busy", "true");
  const [title, ...view] = await viewOf(way, options).catch(failedView);
  if (rendering !== latest) return;
  document.title = safeString(title) + " - " + t("app.title");
  openMenu(false);
  const notice = takeNotice();
  main.replaceChildren(h("h1", {}, safeText(title)), notice,
    ...view.filter((one) => one !== "" && one));
  main.removeAttribute("aria-busy");
  status.textContent = [safeString(title), notice && notice.textContent].filter(Boolean).join(". ");
  if (moved) main.focus();
  showCaller();
}

// On narrow screens the role, the time and the parts of the register are behind a button.
function openMenu(open) {
  by("menu").setAttribute("aria-expanded", String(open));
  document.querySelector(".bar").classList.toggle("open", open);
}

// Shows the caller's party and the roles that it holds.
function showCaller() {
  const who = by("who");
  if (state.me === null) return who.replaceChildren("\u00a0");
  return who.replaceChildren(...(state.name ? [safeText(state.name),
    h("span", { class: "num" }, " " + t("one.parties") + " " + state.me)] :
    [t("one.parties") + " " + state.me]));
}

function fillRoles() {
  const held = state.roles || ROLES;
  const option = (role) => h("option", { value: role }, t("role.title." + role) +
    (held.includes(role) ? "" : " " + t("role.notYours")));
  roleField.replaceChildren(...ROLES.filter((role) => held.includes(role)).map(option),
    ...ROLES.filter((role) => !held.includes(role)).map(option));
}

// Navigates to the same view in another role or at another time.
function navigate(role, at) {
  const path = location.hash.split("?")[0] || "#/start";
  const sameRole = role === state.role;
  state.role = role;
  state.at = at;
  location.hash = (sameRole && !path.startsWith("#/do") ? path : "#/start") + queryOf(at);
}

function showTimeError(text) {
  by("at-wrong").textContent = text;
  if (text) atField.setAttribute("aria-invalid", "true");
  else atField.removeAttribute("aria-invalid");
}

function applyTime() {
  const at = atField.validity.badInput ? undefined : momentOfPicker(atField.value);
  showTimeError(at === undefined ? t("time.wrong") : "");
  if (at !== undefined && at !== state.at) navigate(state.role, at);
}

// The texts of the page's frame in the chosen language.
function showFrame() {
  document.documentElement.lang = language;
  for (const node of document.querySelectorAll("[data-t]")) node.textContent = t(node.dataset.t,
    { zone: zoneName() });
  by("nav").setAttribute("aria-label", t("app.parts"));
  by("language").replaceChildren(...LANGUAGES.map((one) => h("option", { value: one, lang: one },
    languageName(one))));
  by("language").value = language;
  setUpSearch(by("search-form"), by("search-label"));
  fillRoles();
}

async function moveTo() {
  if (location.hash === shownHash) return;
  if (hasUnsaved()) {
    const wanted = location.hash;
    history.replaceState(null, "", shownHash);
    if (!await confirmLeave()) return;
    history.replaceState(null, "", wanted);
  }
  render(true);
}

roleField.addEventListener("change", () => navigate(roleField.value, state.at));
by("language").addEventListener("change", () => {
  setLanguage(by("language").value);
  showFrame();
  render(false);
});
by("to-now").addEventListener("click", () => navigate(state.role, null));
by("context").addEventListener("submit", (event) => {
  event.preventDefault();
  applyTime();
});
atField.addEventListener("change", applyTime);
by("sign-out").addEventListener("click", async () => {
  if (await confirmLeave()) signOut();
});
by("menu").addEventListener("click", () => openMenu(by("menu").getAttribute("aria-expanded") === "false"));
by("skip").addEventListener("click", (event) => {
  event.preventDefault();     // a navigation to its URL would be taken for a view
  main.focus();
});
window.addEventListener("hashchange", moveTo);
window.addEventListener("land-render", () => render(false));

showFrame();
await signIn();
fillRoles();
watchSession();
render(false);

