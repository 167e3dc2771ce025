// A text field with suggestions while typing, by the pattern "combobox" of ARIA: arrow keys choose, Enter
// takes, Escape closes.
import { one, small } from "./components.js";
import { h, newId, safeText } from "./dom.js";
import { find } from "./find.js";
import { t } from "./words.js";

const PAUSE = 180;

// { field, node, close }. `take(item)` is called for the chosen item, `note(text)` with the number of results
// for screen readers.
export function combo({ kinds, take, type = "text", placeholder = "", filter = () => true, more = {} }) {
  const id = newId("list");
  const list = h("ul", { id, role: "listbox", class: "options", hidden: true,
    "aria-label": t("find.results") });
  const status = h("span", { class: "visually-hidden", role: "status" });
  const field = h("input", { type, role: "combobox", autocomplete: "off", "aria-autocomplete": "list",
    "aria-expanded": "false",
    "aria-controls": id, placeholder, spellcheck: "false", maxlength: "200", ...more });
  let items = [];
  let active = -1;
  let latest = 0;
  let timer = 0;

  function close() {
    latest += 1;
    clearTimeout(timer);
    hide();
  }

  function hide() {
    list.hidden = true;
    list.replaceChildren();
    field.setAttribute("aria-expanded", "false");
    field.removeAttribute("aria-activedescendant");
    active = -1;
  }

  function mark(n) {
    active = n;
    [...list.children].forEach((node, m) => node.setAttribute("aria-selected", String(m === n)));
    if (n < 0) return field.removeAttribute("aria-activedescendant");
    field.setAttribute("aria-activedescendant", list.children[n].id);
    return list.children[n].scrollIntoView({ block: "nearest" });
  }

  function choose(n) {
    const item = items[n];
    close();
    if (item) take(item);
  }

  function show({ found, partial }) {
    items = found.filter(filter);
    const options = items.map((item, n) => h("li", { role: "option", id: id + "-" + n,
      "aria-selected": "false",
      onpointerdown: (event) => event.preventDefault(), onclick: () => choose(n) },
      h("span", { class: "option-kind" }, one(item.kind)), " ", safeText(item.text), small(item.number)));
    status.textContent = t("find.count", { n: items.length });
    if (items.length === 0 && type !== "search") return hide();
    const none = items.length ? [] : [h("li", { class: "option-none" }, t("find.none"))];
    const note = partial ? [h("li", { class: "option-none" }, t("find.partial"))] : [];
    list.replaceChildren(...options, ...none, ...note);
    list.hidden = false;
    field.setAttribute("aria-expanded", "true");
    active = -1;
    return undefined;
  }

  async function update() {
    const words = field.value.trim();
    if (words === "") return close();
    const asked = latest += 1;
    const reply = await find(words, kinds);
    if (asked === latest && document.activeElement === field) show(reply);
    return undefined;
  }

  field.addEventListener("input", () => {
    clearTimeout(timer);
    timer = setTimeout(update, PAUSE);
  });
  field.addEventListener("blur", close);
  field.addEventListener("keydown", (event) => {
    if (event.key === "Escape" && !list.hidden) {
      event.preventDefault();
      close();
    } else if (event.key === "ArrowDown" || event.key === "ArrowUp") {
      event.preventDefault();
      if (list.hidden) update();
      else if (items.length) mark((active + (event.key === "ArrowDown" ? 1 : -1) +
        items.length) % items.length);
    } else if (event.key === "Enter" && !list.hidden && (active >= 0 || type === "search")) {
      event.preventDefault();
      if (items.length) choose(Math.max(active, 0));
    }
  });
  return { field, node: h("span", { class: "combo" }, field, list, status), close };
}
