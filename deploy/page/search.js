// The search box of every page.
import { hrefOf } from "./components.js";
import { combo } from "./combo.js";
import { find, SEARCHED } from "./find.js";
import { t } from "./words.js";

// Fills the form of the header.
export function setUpSearch(form, label) {
  const take = (item) => {
    box.field.value = "";
    location.hash = hrefOf(item.kind, item.number);
  };
  const box = combo({ kinds: SEARCHED, take, type: "search",
    more: { id: "search", "aria-label": t("search.label") } });
  box.field.placeholder = t("search.placeholder");
  label.textContent = t("search.label");
  form.replaceChildren(label, box.node);
  form.onsubmit = async (event) => {
    event.preventDefault();
    const { found } = await find(box.field.value);
    if (found.length) {
      box.close();
      take(found[0]);
    }
  };
}
