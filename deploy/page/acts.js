// The 17 acts: which role does which, and the forms of the acts of the office and of citizens. The lodgings
// are in lodgings.js.
import { ROLES, objectOf, state } from "./api.js";
import { errorBox } from "./components.js";
import { h, newId } from "./dom.js";
import { checkField, choiceField, entryField, partyField, pickField, rows, shareField, singleParty,
  textField } from "./fields.js";
import { formView, group } from "./form.js";
import { LODGINGS } from "./lodgings.js";
import { outlineField, readFeatures } from "./outlines.js";
import { readShare, sumOfShares } from "./shares.js";
import { t } from "./words.js";

// The acts of each role. Approving and refusing are in the view of a mutation.
export const ACTS_OF = {
  stateAdministrator: ["register", "enrol", "group", "regroup", "grant", "revoke", "burden", "lift"],
  citizen: ["mandate", "withdraw"],
  conveyancer: ["transfer"],
  notary: ["transfer", "mortgage", "discharge"],
  bank: ["mortgage", "discharge"],
  certifiedSurveyor: ["subdivision", "merger"],
};

const nameField = (key, label) => textField({ key, label: t(label) });
const documentField = () => textField({ key: "document", label: t("col.document"),
  help: t("field.documentHelp") });

function enrol() {
  const kind = choiceField({ key: "kind", label: t("col.kind"),
    options: ["naturalPerson", "nonNaturalPerson"].map((k) => [k, t("party." + k)]) });
  const name = nameField("name", "col.name");
  return { fields: [kind, name], body: () => ({ kind: kind.read(), name: name.read() }) };
}

// Members with shares that sum to one, each party once.
function members(start) {
  const make = (party = null, share = "") => {
    const fields = [partyField({ key: "party", label: t("one.parties"), value: party, allow: singleParty }),
      shareField({ value: share })];
    return { fields, read: () => ({ party: fields[0].read(), share: fields[1].read() }) };
  };
  const list = rows({ least: 2, most: 64, make, addText: t("form.addMember") });
  if (start) {
    list.list.splice(0);
    list.content[0].replaceChildren();
    for (const m of start) list.append(make(m.party, m.share));
  }
  const read = () => list.list.map((row) => row.read());
  const check = async () => wholeError(read().map((m) => m.share)) || twiceError(read().map((m) => m.party));
  return { ...group({ key: "members", label: t("party.members"),
    fields: () => list.list.flatMap((row) => row.fields), content: list.content, check }), read };
}

function wholeError(shares) {
  const sum = sumOfShares(shares.map(readShare));
  return sum === "whole" ? "" : t(sum === "fine" ? "refusal.207" : "refusal.213");
}

const twiceError = (list) => (new Set(list).size < list.length ? t("refusal.219") : "");

function groupAct() {
  const name = nameField("name", "col.name");
  const list = members();
  return { fields: [name, list], body: () => ({ name: name.read(), members: list.read() }) };
}

function regroup(prefill) {
  const place = document.createElement("div");
  let list = members();
  place.append(list.node);
  const isGroup = async (item) => {
    const party = await objectOf("parties", item.number, null);
    return party && party.kind !== "group" ? t("field.onlyGroup") : "";
  };
  const fill = async (item) => {
    const party = item && await objectOf("parties", item.number, null);
    if (!party || party.kind !== "group") return;
    list = members(party.members);
    place.replaceChildren(list.node);
  };
  const which = partyField({ key: "group", label: t("party.oneGroup"), value: prefill.group || null,
    allow: isGroup, onpick: fill });
  return { fields: [which, { node: place, check: () => list.check() }],
    body: () => ({ group: which.read(), members: list.read() }) };
}

// A role that the party does not hold (grant), or holds (revoke).
function roleAct(held) {
  return (prefill) => {
    const role = choiceField({ key: "role", label: t("app.role"), options: [["", t("field.partyFirst")]] });
    const onpick = async (item) => {
      const party = item && await objectOf("parties", item.number, null);
      const fit = party ? ROLES.filter((one) => party.roles.includes(one) === held) : [];
      const options = [["", t(party ? "field.choose" : "field.partyFirst")],
        ...fit.map((one) => [one, t("role.title." + one)])];
      role.input.replaceChildren(...options.map(([value, text]) => new Option(text, value)));
    };
    const party = partyField({ key: "party", label: t("one.parties"), value: prefill.party || null,
      allow: singleParty, onpick });
    return { fields: [party, role], body: () => ({ party: party.read(), role: role.read() }) };
  };
}

// Reads the parcels of a file of GeoJSON into rows: the label of a feature is its property label or name, or
// its id.
function parcelsFile(parcels, make) {
  const status = h("p", { class: "picked", role: "status" });
  const file = h("input", { type: "file", accept: ".geojson,.json", id: newId("file"), onchange: async () => {
    const { features, fault } = readFeatures(await file.files[0].text());
    status.textContent = fault ? t("fault." + fault) : t("field.parcelsRead", { n: features.length });
    if (fault) return;
    const empty = parcels.list.filter((row) => row.fields.every((one) => one.read() === ""));
    for (const { label, outline } of features) if (parcels.list.length < 64) parcels.append(make(label,
      outline));
    for (const row of empty) row.remove.click();
  } });
  return h("div", {}, h("p", { class: "tools" }, h("label", { for: file.id }, t("field.parcelsFile")), file),
    status);
}

function registerAct() {
  const name = nameField("name", "col.name");
  const documentTitle = documentField();
  const checked = checkField({ key: "checked", label: t("field.checked"), help: t("field.checkedHelp") });
  const parcel = (label = "", outline = "") => {
    const fields = [textField({ key: "label", label: t("col.label"), most: 40, size: "short", value: label }),
      outlineField({ others: () => parcels.list.map((row) => row.fields[1]), value: outline })];
    return { fields, read: () => ({ label: fields[0].read(), outline: fields[1].read() }) };
  };
  const parcels = rows({ least: 1, most: 64, make: parcel, addText: t("form.addParcel") });
  const right = () => {
    const fields = [partyField({ key: "party", label: t("one.parties") }),
      choiceField({ key: "type", label: t("field.rightType"),
        options: ["ownership", "lease", "usufruct"].map((c) => [c, t("class." + c)]) }),
      shareField({ value: "1/1" })];
    return { fields, read: () => ({ party: fields[0].read(), type: fields[1].read(),
      share: fields[2].read() }) };
  };
  const rights = rows({ least: 1, most: 64, make: right, addText: t("form.addRight") });
  const read = (list) => list.list.map((row) => row.read());
  const checkRights = async () => {
    const all = read(rights);
    if (!all.some((one) => one.type === "ownership")) return t("field.noOwner");
    const types = [...new Set(all.map((one) => one.type))];
    const wrong = checked.read() &&
      types.map((type) => wholeError(all.filter((one) => one.type === type).map((one) => one.share)))
        .find(Boolean);
    return wrong || twiceError(all.map((one) => one.type + one.party));
  };
  const fieldsOf = (list) => () => list.list.flatMap((row) => row.fields);
  return {
    fields: [name, documentTitle, checked,
      group({ key: "parcels", label: t("many.parcels"), fields: fieldsOf(parcels),
        content: [...parcels.content, parcelsFile(parcels, parcel)] }),
      group({ key: "rights", label: t("field.rights"), fields: fieldsOf(rights), content: rights.content,
        check: checkRights })],
    body: () => ({ name: name.read(), checked: checked.read(), document: documentTitle.read(),
      parcels: read(parcels), rights: read(rights) }),
  };
}

function burden(prefill) {
  const unit = pickField({ key: "unit", kind: "units", label: t("one.units"), value: prefill.unit || null });
  const party = partyField({ key: "party", label: t("field.burdenParty"), help: t("field.burdenHelp") });
  const kind = choiceField({ key: "class", label: t("col.kind"),
    options: ["restriction", "responsibility"].map((c) => [c, t("class." + c)]) });
  const words = textField({ key: "words", label: t("field.words") });
  const documentTitle = documentField();
  return { fields: [unit, kind, words, party, documentTitle],
    body: () => ({ unit: unit.read(), party: party.read(), class: kind.read(), words: words.read(),
      document: documentTitle.read() }) };
}

function lift(prefill) {
  const entry = entryField({ key: "rrr", label: t("field.burdenEntry"),
    classes: ["restriction", "responsibility"], value: prefill.rrr || null });
  const unit = pickField({ key: "unit", kind: "units", label: t("one.units"),
    onpick: (item) => entry.load(item && item.number) });
  const ready = async () => {
    const found = prefill.rrr && await objectOf("rrrs", prefill.rrr, null);
    const of = found && await objectOf("units", found.unit, null);
    if (of) unit.set({ kind: "units", number: of.number, text: of.name });
  };
  return { fields: [unit, entry], body: () => ({ rrr: entry.read() }), ready };
}

const notSelf = async (item) => (item.number === state.me ? t("refusal.219") : singleParty(item));

function mandate() {
  const agent = partyField({ key: "agent", label: t("field.agent"), help: t("field.agentHelp"),
    allow: notSelf });
  return { fields: [agent], body: () => ({ agent: agent.read() }) };
}

function withdraw(prefill) {
  const way = choiceField({ key: "way", label: t("field.mandate"),
    options: [["given", t("field.given")], ["held", t("field.held")]], value: prefill.principal ? "held" : "given" });
  const other = partyField({ key: "other", label: t("field.other"), allow: notSelf,
    value: prefill.agent || prefill.principal || null });
  return { fields: [way, other], body: () => (way.read() === "given" ?
    { principal: state.me, agent: other.read() } : { principal: other.read(), agent: state.me }) };
}

const BUILD = { enrol, group: groupAct, regroup, grant: roleAct(false), revoke: roleAct(true),
  register: registerAct, burden, lift, mandate, withdraw, ...LODGINGS };

// The view of an act. The path may name an object to start with: do/transfer/unit-9.
export function actView(name, path) {
  const title = Object.hasOwn(BUILD, name) ? t("act." + name) : t("app.title");
  if (!(ACTS_OF[state.role] || []).includes(name)) return [title,
    errorBox({ status: 403, body: { denied: ruleOf(name) } })];
  const prefill = {};
  for (const word of path) {
    const found = /^([a-z]+)-(\d{1,10})$/.exec(word);
    if (found) prefill[found[1]] = Number(found[2]);
  }
  return [title, ...formView({ name, leadText: t("act.lead." + name), build: () => BUILD[name](prefill),
    lodging: name in LODGINGS })];
}

// The rule that denies an act to other roles.
const ruleOf = (name) => ({ transfer: 5, subdivision: 6, merger: 6, mortgage: 7, discharge: 7, mandate: 28,
  withdraw: 28 }[name] || 4);
