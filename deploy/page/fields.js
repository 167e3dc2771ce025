// The fields of forms.
import { objectOf } from "./api.js";
import { button, classOf, entryText, named, select } from "./components.js";
import { combo } from "./combo.js";
import { h, newId, safeString } from "./dom.js";
import { find, findNumber, seesAll } from "./find.js";
import { field } from "./form.js";
import { minorUnits, money } from "./format.js";
import { readShare } from "./shares.js";
import { loadUnit } from "./sheet.js";
import { t } from "./words.js";

const CONTROL = /[\u0000-\u001f\u007f]/;

// The register's limits of a text: 1 to `most` characters, no control characters.
function textError(text, most) {
  if (text.trim() === "") return t("field.empty");
  if ([...text].length > most) return t("field.long", { n: most });
  return CONTROL.test(text) ? t("field.control") : "";
}

export function textField({ key, label, most = 200, help, value = "", size }) {
  const input = h("input", { type: "text", name: key, maxlength: String(most * 2), value, class: size ||
    "" });
  return field({ key, label, input, help, read: () => input.value.trim(),
    check: async () => textError(input.value.trim(), most) });
}

export function choiceField({ key, label, options, value, help, onchange = () => null }) {
  const input = select(options, value === undefined ? options[0][0] : value,
    { name: key, onchange: () => onchange(input.value) });
  return { ...field({ key, label, input, help, read: () => input.value,
    check: async () => (input.value ? "" : t("field.choose")) }), input };
}

export function checkField({ key, label, help, value = true }) {
  const input = h("input", { type: "checkbox", name: key });
  input.checked = value;
  return field({ key, label, input, help, read: () => input.checked });
}

export function shareField({ key = "share", label = t("content.share"), help, value = "",
  more = async () => "" }) {
  const input = h("input", { type: "text", name: key, inputmode: "text", placeholder: "1/2", value,
    class: "short" });
  const read = () => input.value.trim();
  const check = async () => {
    const share = readShare(read());
    return share.fault ? t(share.fault === 132 ? "field.share" : "fault." + share.fault) : more(share);
  };
  return { ...field({ key, label, input, help, read, check }), input };
}

export function moneyField() {
  const currency = h("input", { type: "text", name: "currency", value: "EUR", class: "currency",
    maxlength: "3", "aria-label": t("content.currency") });
  const amount = h("input", { type: "text", name: "amount", inputmode: "decimal", class: "amount",
    placeholder: t("field.amountSample") });
  const echo = h("p", { class: "picked", role: "status" });
  const code = () => currency.value.trim().toUpperCase();
  const read = () => (/^[A-Z]{3}$/.test(code()) ? minorUnits(amount.value.trim(), code()) : null);
  const show = () => { echo.textContent = read() === null ? "" : money(read(), code()); };
  for (const node of [currency, amount]) node.addEventListener("input", show);
  const check = async () => (!/^[A-Z]{3}$/.test(code()) ? t("field.currency") : read() === null ?
    t("field.amount") : "");
  const made = field({ key: "amount", label: t("content.amount"),
    input: h("span", { class: "money" }, currency, amount), focus: amount,
    help: t("field.amountHelp"), extra: [echo], read, check });
  return { ...made, currency: code };
}

// A field in which an object is picked by its name or number.
export function pickField({ key, label, kind, help, value = null, allow = async () => "", onpick = () => null,
  filter }) {
  let item = null;
  let several = false;
  const note = h("p", { class: "picked", role: "status" });
  const box = combo({ kinds: [kind], take: (found) => set(found), filter, more: { name: key },
    placeholder: t("field.pick." + kind) });

  function set(found) {
    item = found;
    box.field.value = found.text ? safeString(found.text) : String(found.number);
    note.replaceChildren(found.unseen ? t("field.unseen") : named(kind, found.number, found.text));
    note.classList.toggle("unseen", Boolean(found.unseen));
    onpick(found);
  }

  // Takes a number, or a name that only one object has.
  async function resolve() {
    const words = box.field.value.trim();
    if (item || words === "") return;
    if (/^\d{1,10}$/.test(words) && Number(words) > 0) {
      const found = await findNumber([kind], Number(words));
      if (found.length) set(found[0]);
      else if (!seesAll(kind)) set({ kind, number: Number(words), text: "", unseen: true });
      return;
    }
    const same = (await find(words,
      [kind])).found.filter((one) => one.text.toLowerCase() === words.toLowerCase());
    several = same.length > 1;
    if (same.length === 1) set(same[0]);
  }

  box.field.addEventListener("input", () => {
    item = null;
    several = false;
    note.replaceChildren();
    onpick(null);
  });
  box.field.addEventListener("change", resolve);
  const check = async () => {
    await resolve();
    if (!item && several) return t("field.several");
    if (!item) return box.field.value.trim() === "" ? t("field.empty") : t("field.noSuch." + kind);
    return allow(item);
  };
  const made = field({ key, label, input: box.node, focus: box.field, help, extra: [note],
    read: () => (item ? item.number : null), check });
  if (value !== null) {
    box.field.value = String(value);
    queueMicrotask(resolve);
  }
  return { ...made, item: () => item, set };
}

export const partyField = (options) => pickField({ kind: "parties", ...options });

// A party that is not a group.
export async function singleParty(item) {
  if (item.unseen) return "";
  const party = await objectOf("parties", item.number, null);
  return party && party.kind === "group" ? t("field.notGroup") : "";
}

// A field for an entry of the unit in another field: a list of the unit's entries, or a number if the caller
// may not see the unit.
export function entryField({ key, label, classes, help, value = null, onpick = () => null }) {
  const place = h("span", {});
  const id = newId(key);
  let entries = [];
  let input = h("select", { id, name: key, disabled: true }, new Option(t("field.unitFirst"), ""));
  place.append(input);

  function replace(node) {
    const described = input.getAttribute("aria-describedby");
    if (described) node.setAttribute("aria-describedby", described);
    input = node;
    place.replaceChildren(node);
  }

  async function load(unit) {
    entries = [];
    if (unit === null) return replace(h("select", { id, name: key, disabled: true },
      new Option(t("field.unitFirst"), "")));
    const found = await loadUnit(unit, null);
    if (found.reply) return replace(h("input", { id, name: key, type: "text", inputmode: "numeric",
      placeholder: t("field.number"), value: value || "" }));
    entries = found.entries.filter((e) => classes.includes(e.class));
    const text = (e) => classOf(e) + ": " + safeString(e.name) + ", " + (e.share || textOf(e)) + " (" +
      e.number + ")";
    const options = entries.map((e) => [String(e.number), text(e)]);
    const node = select([["", entries.length ? t("field.choose") : t("field.noEntries")], ...options], "",
      { id, name: key, onchange: () => onpick(chosen()) });
    if (value && entries.some((e) => e.number === value)) node.value = String(value);
    else if (entries.length === 1) node.value = String(entries[0].number);
    replace(node);
    return onpick(chosen());
  }

  const textOf = (e) => {
    const text = entryText(e);
    return text instanceof Node ? text.textContent : text;
  };
  const read = () => Number(input.value) || null;
  const chosen = () => entries.find((e) => e.number === read()) || null;
  const check = async () => (read() && /^[1-9]\d{0,9}$/.test(input.value.trim()) ? "" : t("field.choose"));
  const made = field({ key, label, input: place, focus: input, help, read, check });
  return { ...made, load, chosen, focus: () => input.focus() };
}

// Rows of fields that can be added and removed.
export function rows({ least, most, make, addText }) {
  const list = [];
  const body = h("div", { class: "rows" });
  const add = button(addText, () => append(make()));

  function update() {
    add.disabled = list.length >= most;
    for (const one of list) one.remove.hidden = list.length <= least;
  }

  function append(row) {
    const remove = button(t("form.remove"), () => {
      list.splice(list.indexOf(row), 1);
      node.remove();
      update();
    });
    const node = h("div", { class: "row" }, ...row.fields.map((one) => one.node), remove);
    list.push(Object.assign(row, { remove }));
    body.append(node);
    update();
  }
  for (let n = 0; n < least; n += 1) append(make());
  return { list, content: [body, h("p", { class: "tools" }, add)], append };
}

// A reference that the caller has not used: the date and random characters.
export function newReference() {
  const day = new Date().toISOString().slice(2, 10).replaceAll("-", "");
  const random = crypto.getRandomValues(new Uint32Array(1))[0].toString(36).slice(0, 5).toUpperCase();
  return day + "-" + random;
}

