// The form of an act: fields that check themselves, a summary of what is wrong, sending, and the reply.
import { objectOf, send } from "./api.js";
import { button, errorBox, hrefOf, link, message, named, success } from "./components.js";
import { h, newId } from "./dom.js";
import { when } from "./moments.js";
import { guard } from "./session.js";
import { parts, t } from "./words.js";

// A field: a label, an input, a help text and an error. `input` may be any node; `focus` is the element to
// focus.
export function field({ key, label, input, focus = input, help = "", read, check = async () => "",
  extra = [] }) {
  if (!focus.id) focus.id = newId(key);
  const helpId = focus.id + "-help";
  const errorId = focus.id + "-error";
  const error = h("p", { class: "field-error", id: errorId });
  focus.setAttribute("aria-describedby", [help ? helpId : "", errorId].filter(Boolean).join(" "));
  const node = h("div", { class: "field", "data-key": key }, h("label", { for: focus.id }, label),
    h("div", { class: "value" }, input, help ? h("p", { class: "help", id: helpId }, help) : "", ...extra,
      error));
  const show = (text) => {
    error.textContent = text;
    if (text) focus.setAttribute("aria-invalid", "true");
    else focus.removeAttribute("aria-invalid");
  };
  node.addEventListener("input", () => show(""));
  return { key, label, node, read, focus: () => focus.focus(), show,
    check: async () => {
      const text = await check();
      show(text);
      return text ? [{ label, text, focus: () => focus.focus() }] : [];
    } };
}

// A group of fields under a heading; `fields()` returns those that are shown now.
export function group({ key, label, fields, content, check = async () => "" }) {
  const error = h("p", { class: "field-error", id: newId(key) });
  const node = h("fieldset", { class: "group", "data-key": key, tabindex: "-1" }, h("legend", {}, label),
    ...content, error);
  node.addEventListener("input", () => { error.textContent = ""; });
  return { key, node,
    check: async () => {
      const found = (await Promise.all(fields().map((one) => one.check()))).flat();
      const text = found.length ? "" : await check();
      error.textContent = text;
      return text ? [...found, { label, text, focus: () => node.focus() }] : found;
    } };
}

// Objects that an act created, as links: the register returns only their numbers.
async function madeLinks(numbers) {
  const kinds = ["units", "parties", "parcels", "rrrs", "mutations"];
  const one = async (number) => {
    for (const kind of kinds) {
      const o = await objectOf(kind, number, null);
      if (o) return o.name ? named(kind, number, o.name) : link(kind, number);
    }
    return String(number);
  };
  const links = await Promise.all(numbers.slice(0, 12).map(one));
  return links.flatMap((node, n) => [n ? ", " : "", node]);
}

// The view of a form: `build()` makes { fields, body } anew after each success, so that the next act starts
// with empty fields.
export function formView({ name, leadText, build, lodging }) {
  const place = h("div", {});
  const answer = h("div", { class: "answer", role: "status" });
  let current;

  function start() {
    current = build();
    const summary = h("div", {});
    const submit = h("button", { class: "main" }, t("act.send." + (lodging ? "lodge" : name)));
    const form = h("form", { class: "form panel", novalidate: true, autocomplete: "off" }, summary,
      ...current.fields.map((one) => one.node),
      h("p", { class: "tools" }, submit, button(t("form.clear"),
        () => { answer.replaceChildren(); start(); })));
    let touched = false;
    form.addEventListener("input", () => {
      touched = true;
      if (![...form.querySelectorAll(".field-error")].some((node) => node.textContent)) summary.replaceChildren();
    });
    guard(() => touched && form.isConnected);
    form.addEventListener("submit", async (event) => {
      event.preventDefault();
      if (submit.disabled) return;
      submit.disabled = true;
      const sent = await submitForm(summary);
      submit.disabled = false;
      if (sent) touched = false;
    });
    place.replaceChildren(form);
    if (current.ready) current.ready();
  }

  // Checks all fields; shows a summary with links to those that are wrong.
  async function submitForm(summary) {
    answer.replaceChildren();
    const wrong = (await Promise.all(current.fields.map((one) => one.check()))).flat();
    summary.replaceChildren();
    if (wrong.length) {
      const items = wrong.map((one) => h("li", {}, button(one.label + ": " + one.text, one.focus,
        { class: "as-link" })));
      summary.replaceChildren(message(t("form.wrong", { n: wrong.length }), h("ul", {}, ...items)));
      wrong[0].focus();
      return false;
    }
    const reply = await send("acts/" + name, current.body());
    if (reply.status === 200) {
      answer.replaceChildren(await doneBox(reply.body));
      start();
      answer.scrollIntoView({ block: "nearest" });
      return true;
    }
    const repeat = reply.status >= 500 ? h("p", {}, t(lodging ? "form.repeat" : "form.lookFirst")) : "";
    answer.replaceChildren(errorBox(reply, repeat));
    answer.firstChild.scrollIntoView({ block: "nearest" });
    return false;
  }

  async function doneBox(body) {
    if (lodging) {
      return success(t("form.lodged"), ...parts("form.lodgedText",
        { mutation: h("a", { href: hrefOf("mutations", body.number) },
        t("act." + name), h("span", { class: "num" }, "\u00a0" + body.number)), when: when(body.stamp) }));
    }
    const made = await madeLinks(body.made.length ? body.made : name === "lift" ? [] : [body.number]);
    return success(t("form.done." + name), ...(made.length ? parts("form.made", { list: made }) : []), " ",
      ...parts("decide.at", { when: when(body.stamp) }));
  }

  start();
  return [h("p", { class: "lead" }, leadText), answer, place];
}

