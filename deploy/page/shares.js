// Shares: exact fractions, checked as the register checks them (docs/FRACTIONS.md).
const MAX_DENOMINATOR = 1000000000n;

const gcd = (a, b) => (b === 0n ? a : gcd(b, a % b));

// Reads a share: { num, den } in lowest terms, or { fault }.
export function readShare(text) {
  const found = /^(\d{1,18})\/(\d{1,18})$/.exec(text);
  if (!found || BigInt(found[2]) === 0n) return { fault: 132 };
  const [num, den] = [BigInt(found[1]), BigInt(found[2])];
  if (num === 0n) return { fault: 101 };
  if (num > den) return { fault: 102 };
  const by = gcd(num, den);
  return den / by > MAX_DENOMINATOR ? { fault: 103 } : { num: num / by, den: den / by };
}

export const shareText = ({ num, den }) => num + "/" + den;

// Whether some shares sum to one: "whole", "other", or "fine" if they have no common denominator up to
// 1,000,000,000.
export function sumOfShares(shares) {
  let den = 1n;
  for (const one of shares) {
    den = den / gcd(den, one.den) * one.den;
    if (den > MAX_DENOMINATOR) return "fine";
  }
  return shares.reduce((sum, one) => sum + one.num * (den / one.den), 0n) === den ? "whole" : "other";
}

export const isAbove = (one, other) => one.num * other.den > other.num * one.den;
