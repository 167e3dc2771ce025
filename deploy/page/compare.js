// Two moments of a unit side by side, with the differences marked.
import { classOf, errorBox, named, table } from "./components.js";
import { h, safeText } from "./dom.js";
import { decimal } from "./format.js";
import { when } from "./moments.js";
import { detailOf, loadUnit } from "./sheet.js";
import { t } from "./words.js";

// The lines of a unit by key: the same object has the same key at both moments.
function linesOf(unit) {
  const found = new Map();
  if (unit.reply) return found;
  found.set("name", [t("col.name"), [safeText(unit.sheet.name)], unit.sheet.name]);
  for (const p of unit.sheet.parcels) {
    found.set("parcel " + p.number, [t("one.parcels") + " " + p.number,
      [safeText(p.label), ", " + decimal(p.area) + " m²"], p.label + p.area]);
  }
  for (const e of unit.entries) {
    found.set("entry " + e.number, [classOf(e) + " " + e.number,
      [named("parties", e.party, e.name), ", ", detailOf(e)], e.party + e.name + e.rest]);
  }
  return found;
}

export async function compareMoments(number, first, second) {
  const [one, two] = await Promise.all([loadUnit(number, first), loadUnit(number, second)]);
  const failed = [one, two].find((unit) => unit.reply && unit.reply.status !== 403);
  if (failed) return [errorBox(failed.reply)];
  const [before, after] = [linesOf(one), linesOf(two)];
  const keys = [...new Set([...before.keys(), ...after.keys()])];
  let differences = 0;
  const rows = keys.map((key) => {
    const [a, b] = [before.get(key), after.get(key)];
    const differs = !a || !b || a[2] !== b[2];
    differences += differs ? 1 : 0;
    const cell = (side) => {
      const content = side ? side[1] : [h("span", { class: "lead" }, t("change.nothing"))];
      return differs ? h("div", { class: "differs" }, ...content) : h("div", {}, ...content);
    };
    return [(a || b)[0], cell(a), cell(b)];
  });
  const head = (at) => (at === null ? t("compare.now") : when(at).textContent);
  return [table(t("compare.caption", { n: differences }), [t("change.what"), head(first), head(second)], rows,
    "changes")];
}
