// The fourth part: a secret is split into shares, lines of text, and comes back from as many as are needed.
import { SECRET_LIMIT } from "./binary_field/secrets.mjs";
import { hex } from "./binary_field/sha256.mjs";

const find = (id) => document.getElementById(id);

/** The bytes that are written as text, or as hexadecimal digits; null where digits are no bytes. */
function bytesOf(text, isHex) {
  if (!isHex) return new TextEncoder().encode(text);
  const digits = text.replace(/\s/g, "");
  if (digits.length % 2 || /[^0-9a-f]/i.test(digits)) return null;
  return Uint8Array.from(digits.match(/../g) ?? [], (it) => parseInt(it, 16));
}

/** Bytes as people read them: as text where they are text that can be seen, and else in hexadecimal. */
function textOf(bytes) {
  try {
    const text = new TextDecoder("utf-8", { fatal: true, ignoreBOM: true }).decode(bytes);
    if (!/[\p{Cc}\p{Cn}\p{Co}]/u.test(text)) return `as text: ${text}`;
  } catch {
    // no text
  }
  return `in hexadecimal: ${hex(bytes)}`;
}

export function startSecrets(bf) {
  const [lines, says, combined] = ["share-lines", "secret-says", "combined"].map(find);
  const linesLeft = () => lines.value.split("\n").filter((it) => it !== "");
  const say = (text, isWrong = false) => {
    says.textContent = text;
    says.classList.toggle("wrong", isWrong);
  };

  // What the lines give, as they are typed.
  const combine = () => {
    combined.textContent = "";
    if (!linesLeft().length) return say("There is no share.");
    try {
      combined.textContent = textOf(bf.secrets.combineText(lines.value));
      say(`${linesLeft().length} shares give the secret.`);
    } catch (error) {
      say(`There is no secret: ${error.message}.`, true);
    }
  };

  const split = () => {
    const [shares, needed] = ["secret-shares", "secret-needed"].map((id) => find(id).valueAsNumber);
    const secret = bytesOf(find("secret").value, find("secret-form").value === "hex");
    combined.textContent = "";
    if (!secret) return say("The secret is no hexadecimal number of whole bytes.", true);
    if (!secret.length || secret.length > SECRET_LIMIT) {
      return say(`A secret has from 1 to ${SECRET_LIMIT} bytes, and this one has ${secret.length}.`, true);
    }
    if (!(Number.isInteger(shares) && Number.isInteger(needed) && 2 <= needed && needed <= shares && shares <= 255)) {
      return say("At least 2 shares are needed, there are at least as many, and at most 255.", true);
    }
    lines.value = bf.secrets.splitToText(secret, shares, needed);
    secret.fill(0);
    combine();
    say(`${shares} shares, of which any ${needed} give the secret. Take some away, in any order, or change a digit.`);
  };

  find("secret-split").addEventListener("click", split);
  find("secret-lose").addEventListener("click", () => {
    const left = linesLeft();
    left.shift();
    lines.value = left.map((it) => `${it}\n`).join("");
    combine();
  });
  lines.addEventListener("input", combine);
  split();
}
