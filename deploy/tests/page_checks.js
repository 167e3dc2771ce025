// Accessibility and text checks that deploy/tests/page runs in the browser. Each function returns a list of faults.

const visible = (e) => e.checkVisibility({ opacityProperty: true, visibilityProperty: true }) && e.getClientRects().length > 0 &&
  !e.closest(".visually-hidden") && !(e.id === "skip");

function colour(text) {
  const [r, g, b, a = 1] = text.match(/[\d.]+/g).map(Number);
  return [r, g, b, a];
}

// The background colour of an element: that of the nearest ancestor that has one.
function background(e) {
  for (let one = e; one; one = one.parentElement) {
    const found = colour(getComputedStyle(one).backgroundColor);
    if (found[3] > 0) return found;
  }
  return [255, 255, 255, 1];
}

function luminance([r, g, b]) {
  const [x, y, z] = [r, g, b].map((c) => (c / 255 <= 0.03928 ? c / 255 / 12.92 : ((c / 255 + 0.055) / 1.055) ** 2.4));
  return 0.2126 * x + 0.7152 * y + 0.0722 * z;
}

function ratio(one, two) {
  const [a, b] = [luminance(one), luminance(two)];
  return (Math.max(a, b) + 0.05) / (Math.min(a, b) + 0.05);
}

const describe = (e) => e.outerHTML.slice(0, 90);

// The contrast of texts, of the borders of controls, and of the labels and lines of drawings.
function contrast() {
  const found = [];
  const walk = document.createTreeWalker(document.body, NodeFilter.SHOW_TEXT);
  while (walk.nextNode()) {
    const e = walk.currentNode.parentElement;
    if (!walk.currentNode.data.trim() || e.closest("svg,noscript,option,datalist") || !visible(e)) continue;
    const style = getComputedStyle(e);
    const size = parseFloat(style.fontSize);
    const expected = size >= 24 || (size >= 18.66 && Number(style.fontWeight) >= 700) ? 3 : 4.5;
    const got = ratio(colour(style.color), background(e));
    if (got < expected) found.push(got.toFixed(2) + " " + describe(e));
  }
  for (const e of document.querySelectorAll("input,select,button,textarea,a.button")) {
    if (!visible(e)) continue;
    if (e.classList.contains("as-link") || e.type === "checkbox") continue;
    const [border, back] = [colour(getComputedStyle(e).borderTopColor), background(e.parentElement)];
    const edge = Math.max(ratio(border, back), ratio(colour(getComputedStyle(e).backgroundColor), back));
    if (e.type !== "range" && edge < 3) found.push("border " + describe(e));
  }
  for (const e of document.querySelectorAll("svg.plan path, svg.plan circle")) {
    if (e.getAttribute("r") === "0") continue;
    const style = getComputedStyle(e);
    const paper = colour(getComputedStyle(e.closest("svg")).backgroundColor);
    const tone = style.stroke === "none" ? style.fill : style.stroke;
    if (ratio(colour(tone), paper) < 3) found.push("line " + describe(e));
    const text = e.parentElement.querySelector("text");
    if (!text || style.fill === "none") continue;
    if (ratio(colour(getComputedStyle(text).fill), colour(style.fill)) < 4.5) found.push("label " + describe(text));
  }
  return found;
}

// Every control has an accessible name, and every id reference resolves.
function names() {
  const found = [];
  const kinds = "a[href],button,input,select,textarea,canvas,svg[role],[role=region],[role=listbox],nav,fieldset";
  for (const e of document.querySelectorAll(kinds)) {
    const labels = e.labels && e.tagName !== "BUTTON" ? [...e.labels].map((l) => l.textContent).join("") : null;
    if (e.hidden && e.tagName === "INPUT") continue;
    const own = labels !== null ? labels : e.tagName === "NAV" ? "" : e.textContent;
    const words = [e.getAttribute("aria-label"), own, e.tagName === "FIELDSET" && e.querySelector("legend").textContent];
    if (!words.some((word) => word && word.trim())) found.push("no name: " + describe(e));
  }
  for (const e of document.querySelectorAll("[aria-describedby],[aria-controls],[aria-labelledby],[for],[list]")) {
    const references = ["aria-describedby", "aria-controls", "aria-labelledby", "for", "list"];
    const ids = references.map((name) => e.getAttribute(name)).filter(Boolean).join(" ").split(" ");
    found.push(...ids.filter((id) => !document.getElementById(id)).map((id) => "no such id " + id));
  }
  const all = [...document.querySelectorAll("[id]")].map((e) => e.id);
  found.push(...all.filter((id, n) => all.indexOf(id) !== n).map((id) => "duplicate id: " + id));
  return found;
}

// The order of headings, landmarks, the language, the title, table headers.
function order() {
  const found = [];
  const levels = [...document.querySelectorAll("h1,h2,h3,h4")].filter(visible).map((e) => Number(e.tagName[1]));
  if (levels.filter((n) => n === 1).length !== 1) found.push("not exactly one h1: " + levels);
  if (levels.some((n, place) => n > (place ? levels[place - 1] : 0) + 1)) found.push("skipped heading level: " + levels);
  for (const name of ["main", "header", "footer", "nav"]) if (!document.querySelector("body > " + name)) found.push("no " + name);
  if (!document.documentElement.lang) found.push("no language");
  if (!/\S - Land register$/.test(document.title)) found.push("title " + document.title);
  for (const e of document.querySelectorAll("table")) {
    if (!e.caption || [...e.querySelectorAll("th")].some((th) => th.scope !== "col")) found.push("a table without headers: " + describe(e));
  }
  if (document.querySelector("[tabindex]:not([tabindex='0']):not([tabindex='-1'])")) found.push("a positive tabindex");
  return found;
}

// Targets are at least 24 by 24 pixels, or no other target is within 24 pixels of their centre.
function targets() {
  const all = [...document.querySelectorAll("a[href],button,input,select,summary")].filter(visible);
  const boxes = all.map((e) => e.getBoundingClientRect());
  const centre = (b) => [b.x + b.width / 2, b.y + b.height / 2];
  const holder = (e) => e.closest("p:not(.tools),dd,td,li");
  const inText = (e) => e.tagName === "A" && holder(e) && holder(e).textContent.trim() !== e.textContent.trim();
  return all.filter((e, n) => {
    const b = boxes[n];
    if (b.width >= 24 && b.height >= 24 || inText(e) || e.closest("svg")) return false;
    const [x, y] = centre(b);
    return boxes.some((other, m) => m !== n && Math.hypot(x - centre(other)[0], y - centre(other)[1]) < 24);
  }).map(describe);
}

// Nothing is wider than the page, except elements that scroll.
function reflow() {
  const wide = document.documentElement.clientWidth;
  if (document.documentElement.scrollWidth <= wide) return [];
  return [...document.querySelectorAll("body *")].filter((e) => visible(e) && e.getBoundingClientRect().right > wide + 1 &&
    !e.closest(".scroll,pre,svg,.visually-hidden,thead")).slice(0, 3).map(describe).concat("wider than the page");
}

// The controls of the header are in the window and do not overlap. From 768 pixels on they have two rows, and signing out is at the end of
// the first one.
function header() {
  const all = [...document.querySelectorAll(".bar a, .bar input, .bar select, .bar button")].filter(visible);
  const box = (e) => e.getBoundingClientRect();
  const middle = (e) => box(e).y + box(e).height / 2;
  const found = all.filter((e) => box(e).left < 0 || box(e).right > document.documentElement.clientWidth)
    .map((e) => "outside the window: " + describe(e));
  for (const [n, a] of all.entries()) {
    for (const b of all.slice(n + 1)) {
      if (box(a).left < box(b).right && box(b).left < box(a).right && box(a).top < box(b).bottom && box(b).top < box(a).bottom) {
        found.push("overlap: " + describe(a) + " and " + describe(b));
      }
    }
  }
  if (innerWidth < 768) return found;
  const rows = new Set(all.map((e) => Math.round(middle(e) / 12)));
  const out = document.getElementById("sign-out");
  const right = document.documentElement.clientWidth - box(out).right;
  if (rows.size !== 2) found.push(rows.size + " rows");
  if (Math.abs(middle(out) - middle(document.getElementById("search"))) > 6 || right > 40) found.push("signing out is not at the end");
  return found;
}

// The focused element has a visible indicator with sufficient contrast: a two-tone ring, or the outline of a parcel.
function focused() {
  const e = document.activeElement;
  if (e === document.body || e.id === "main") return [];
  if (e.tagName === "DIALOG" || e.classList.contains("scroll")) return [];
  const drawn = e.closest("svg") && e.querySelector("path");
  const style = getComputedStyle(drawn || e);
  const paper = drawn ? colour(getComputedStyle(e.closest("svg")).backgroundColor) : background(e.parentElement);
  if (drawn) return parseFloat(style.strokeWidth) >= 4 && ratio(colour(style.stroke), paper) >= 3 ? [] : ["focus " + describe(e)];
  const ring = style.outlineStyle !== "none" && parseFloat(style.outlineWidth) >= 2 ? [colour(style.outlineColor)] : [];
  const shadow = /^(rgba?\([^)]*\)) 0px 0px 0px (\d+)px$/.exec(style.boxShadow);
  if (ring.length && shadow && Number(shadow[2]) >= parseFloat(style.outlineWidth) + 2) ring.push(colour(shadow[1]));
  return ring.some((one) => ratio(one, paper) >= 3) ? [] : ["focus " + describe(e)];
}

// Unescaped characters in texts or attributes that are invisible or change the direction of text.
function unescaped() {
  const all = [document.documentElement, ...document.querySelectorAll("*")];
  const words = [document.title, document.documentElement.textContent, ...all.flatMap((e) => [...e.attributes].map((a) => a.value))];
  return words.filter((text) => /[\u0080-\u009f\u00ad\u200b-\u200f\u2028-\u202e\u2060-\u206f\ufe00-\ufe0f\ufeff]/.test(text))
    .map((text) => "unescaped: " + encodeURI(text).slice(0, 90));
}

// With wider letter, word and line spacing (WCAG 1.4.12), nothing is wider than the page.
function spacing() {
  const rule = "line-height: 1.5 !important; letter-spacing: .12em !important; word-spacing: .16em !important;";
  document.styleSheets[0].insertRule("* { " + rule + " }");
  return reflow();
}
