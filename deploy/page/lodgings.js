// The forms of the five lodgings. What the caller may see is checked before sending; the office checks the
// rest when it decides.
import { objectOf, state } from "./api.js";
import { h, safeText } from "./dom.js";
import { button, small } from "./components.js";
import { choiceField, entryField, moneyField, newReference, partyField, pickField, shareField,
  textField } from "./fields.js";
import { group } from "./form.js";
import { join } from "./ground.js";
import { allOf } from "./mirror.js";
import { partsField } from "./parts.js";
import { plan } from "./plan.js";
import { readWkt, wktOf } from "./shape.js";
import { isAbove, readShare } from "./shares.js";
import { t } from "./words.js";

function head() {
  const reference = textField({ key: "reference", label: t("col.reference"), most: 40, value: newReference(),
    help: t("field.referenceHelp"), size: "short" });
  const documentTitle = textField({ key: "document", label: t("col.document"),
    help: t("field.documentHelp") });
  return { fields: [reference, documentTitle], read: () => ({ reference: reference.read(),
    document: documentTitle.read() }) };
}

// Sets a unit field to the unit of an entry.
async function unitOfEntry(unit, number) {
  const entry = number && await objectOf("rrrs", number, null);
  const of = entry && await objectOf("units", entry.unit, null);
  if (of) unit.set({ kind: "units", number: of.number, text: of.name });
}

function transfer(prefill) {
  const top = head();
  const right = entryField({ key: "right", label: t("content.right"),
    classes: ["ownership", "lease", "usufruct"], value: prefill.right || null,
    onpick: (entry) => { if (entry && !share.input.value) share.input.value = entry.share; } });
  const unit = pickField({ key: "unit", kind: "units", label: t("one.units"), value: prefill.unit || null,
    onpick: (item) => right.load(item && item.number) });
  const receiver = partyField({ key: "receiver", label: t("content.receiver"), help: t("field.receiverHelp"),
    allow: async (item) => (right.chosen() && right.chosen().party === item.number ? t("field.isHolder") :
      "") });
  const share = shareField({ help: t("field.shareHelp"),
    more: async (value) => (right.chosen() && isAbove(value, readShare(right.chosen().share)) ?
      t("field.shareAbove", { share: right.chosen().share }) : "") });
  return { fields: [unit, right, receiver, share, ...top.fields],
    ready: () => unitOfEntry(unit, prefill.right),
    body: () => ({ ...top.read(), unit: unit.read(), right: right.read(), receiver: receiver.read(),
      share: share.read() }) };
}

async function isBank(item) {
  const party = item.unseen ? null : await objectOf("parties", item.number, null);
  return party && !party.roles.includes("bank") ? t("refusal.211") : "";
}

function mortgage(prefill) {
  const top = head();
  const unit = pickField({ key: "unit", kind: "units", label: t("one.units"), value: prefill.unit || null });
  const amount = moneyField();
  const creditor = state.role === "bank" ? null : partyField({ key: "creditor", label: t("content.creditor"),
    allow: isBank });
  return { fields: [unit, ...(creditor ? [creditor] : []), amount, ...top.fields],
    body: () => ({ ...top.read(), unit: unit.read(), creditor: creditor ? creditor.read() : state.me,
      amount: amount.read(), currency: amount.currency() }) };
}

function discharge(prefill) {
  const top = head();
  const entry = entryField({ key: "mortgage", label: t("class.mortgage"), classes: ["mortgage"],
    value: prefill.mortgage || null });
  const unit = pickField({ key: "unit", kind: "units", label: t("one.units"), value: prefill.unit || null,
    onpick: (item) => entry.load(item && item.number) });
  return { fields: [unit, entry, ...top.fields], ready: () => unitOfEntry(unit, prefill.mortgage),
    body: () => ({ ...top.read(), unit: unit.read(), mortgage: entry.read() }) };
}

const asItem = (parcel) => ({ kind: "parcels", number: parcel.number, text: parcel.label,
  unit: parcel.unit });

function subdivision(prefill) {
  const top = head();
  const divided = partsField();
  let parcel = null;
  const which = pickField({ key: "parcel", kind: "parcels", label: t("content.parcel"),
    value: prefill.parcel || null, onpick: async (item) => {
    parcel = item && await objectOf("parcels", item.number, null);
    divided.load(parcel);
  } });
  return { fields: [which, divided, ...top.fields],
    body: () => ({ ...top.read(), unit: parcel.unit, parcel: parcel.number, ...divided.read() }) };
}

// Parcels that are joined: their union is computed, so it always has their ground.
function merger(prefill) {
  const top = head();
  let chosen = [];
  let joined = null;
  const list = h("ul", { class: "plain" });
  const drawing = h("div", {});
  const stays = choiceField({ key: "unit", label: t("field.stays"), options: [["", t("field.parcelsFirst")]],
    help: t("field.staysHelp") });
  const label = textField({ key: "label", label: t("field.newLabel"), most: 40, size: "short" });

  function update() {
    list.replaceChildren(...chosen.map((p) => h("li", {}, safeText(p.label), small(p.number), " ",
      t("one.units") + " " + p.unit + " ",
      button(t("form.remove"), () => {
        chosen = chosen.filter((other) => other !== p);
        update();
      }))));
    const units = [...new Set(chosen.map((p) => p.unit))].sort((a, b) => a - b);
    const before = stays.input.value;
    stays.input.replaceChildren(...units.map((n) => new Option(t("one.units") + " " + n, n)));
    if (units.includes(Number(before))) stays.input.value = before;
    joined = chosen.length > 1 ? join(chosen.map((p) => readWkt(p.outline).ring)) : null;
    const fresh = joined && joined.ring ? [{ number: 1, outline: wktOf(joined.ring), here: true }] : [];
    drawing.replaceChildren(chosen.length ? h("div", { class: "side-by-side" },
      h("figure", {}, h("figcaption", {}, t("change.now")), plan(chosen)),
      fresh.length ? h("figure", {}, h("figcaption", {}, t("change.after")), plan(fresh)) : "") : "");
    return joined && joined.error ? t(joined.error) : "";
  }

  async function add(item) {
    const parcel = await objectOf("parcels", item.number, null);
    if (parcel && !chosen.some((p) => p.number === parcel.number) && chosen.length < 16) chosen.push(parcel);
    update();
  }
  const picker = pickField({ key: "add", kind: "parcels", label: t("field.addParcels"),
    onpick: (item) => { if (item) add(item); } });
  const check = async () => {
    if (chosen.length < 2) return t("field.twoParcels");
    return update() || missingParcels(chosen, Number(stays.input.value));
  };
  const shown = group({ key: "parcels", label: t("content.parcels"), fields: () => [], check,
    content: [picker.node, list, drawing] });
  const numbers = (values) => [...new Set(values)].sort((a, b) => a - b);
  return {
    fields: [shown, stays, label, ...top.fields],
    ready: async () => {
      const first = prefill.parcel && await objectOf("parcels", prefill.parcel, null);
      if (first) add(asItem(first));
    },
    body: () => ({ ...top.read(), unit: Number(stays.read()),
      others: numbers(chosen.map((p) => p.unit)).filter((n) => n !== Number(stays.read())),
      parcels: numbers(chosen.map((p) => p.number)), label: label.read(), outline: wktOf(joined.ring) }),
  };
}

// A unit that ends must have no other parcel. With the mirror its parcels are known.
async function missingParcels(chosen, unit) {
  for (const other of new Set(chosen.map((p) => p.unit).filter((n) => n !== unit))) {
    const all = await allOf("parcels", { unit: other });
    const missing = all && all.objects.find((p) => !chosen.some((one) => one.number === p.number));
    if (missing) return t("field.missingParcel", { n: String(missing.number), unit: String(other) });
  }
  return "";
}

export const LODGINGS = { transfer, mortgage, discharge, subdivision, merger };
