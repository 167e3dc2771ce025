// Dialogs of the page: modal, with the focus inside, closed by Escape.
import { button } from "./components.js";
import { h, newId } from "./dom.js";
import { t } from "./words.js";

// Shows a dialog and returns the value of the button that was pressed; null for Escape.
export function ask(title, content, choices) {
  return new Promise((answer) => {
    const id = newId("dialog");
    const node = h("dialog", { "aria-labelledby": id }, h("h2", { id }, title), ...content,
      h("p", { class: "tools" }, ...choices.map(([value, text, main]) => button(text, () => node.close(value),
        { class: main ? "main" : "" }))));
    node.addEventListener("close", () => {
      node.remove();
      answer(node.returnValue || null);
    });
    document.body.append(node);
    node.showModal();
  });
}

export async function decisionDialog(question, title) {
  return await ask(question, [h("p", {}, title), h("p", { class: "lead" }, t("decide.final"))],
    [["yes", t("dialog.yes"), true], ["no", t("dialog.no")]]) === "yes";
}
