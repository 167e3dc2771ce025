// Numbers, money and areas, exact, with the reader's separators.
import { locale } from "./words.js";

function separators() {
  const found = new Intl.NumberFormat(locale).formatToParts(12345678.5);
  const of = (type, otherwise) => (found.find((one) => one.type === type) || { value: otherwise }).value;
  return { group: of("group", ""), point: of("decimal", ".") };
}

// A decimal number in plain digits, such as "2500000.50", with the reader's separators.
function withSeparators(whole, rest) {
  const { group, point } = separators();
  return whole.replace(/\B(?=(\d{3})+$)/g, () => group) + (rest ? point + rest : "");
}

export const count = (n) => withSeparators(String(n), "");

// A decimal number without trailing zeros.
export function decimal(text) {
  const [whole, rest = ""] = text.split(".");
  return withSeparators(whole, rest.replace(/0+$/, ""));
}

// The number of decimal places of a currency (ISO 4217), as far as the browser knows it.
export function placesOf(currency) {
  return new Intl.NumberFormat("en", { style: "currency", currency }).resolvedOptions().maximumFractionDigits;
}

// An amount in minor units, with its currency: EUR 25,000.00 for 2500000.
export function money(amount, currency) {
  const places = placesOf(currency);
  const digits = String(amount).padStart(places + 1, "0");
  return currency + "\u00a0" + withSeparators(digits.slice(0, digits.length - places), places ?
    digits.slice(-places) : "");
}

// The minor units of an amount that a user entered, or null. A point or a comma before the last digits
// separates minor units.
export function minorUnits(text, currency) {
  const places = placesOf(currency);
  const plain = text.replace(/[\s\u00a0\u202f'’]/g, "");
  const found = /^(\d+|\d{1,3}(?:[.,]\d{3})+)(?:([.,])(\d{1,4}))?$/.exec(plain);
  if (!found) return null;
  const [, whole, mark, rest = ""] = found;
  if (mark && whole.includes(mark)) return null;
  if (mark && (places === 0 || rest.length > places)) {
    // 25.000 or 25,000: thousands, only if the reader writes them so
    return rest.length === 3 && mark === separators().group ?
      minorUnits(plain.replaceAll(mark, ""), currency) : null;
  }
  const value = BigInt(whole.replace(/[.,]/g, "") + rest.padEnd(places, "0"));
  return value >= 1n && value <= 1000000000000000n ? Number(value) : null;
}

// A doubled area in square millimetres as square metres with at most seven decimals.
export function squareMetres(doubled) {
  const units = (doubled < 0n ? -doubled : doubled) * 5n;     // of 1e-7 square metres
  return decimal(units / 10000000n + "." + String(units % 10000000n).padStart(7, "0"));
}
