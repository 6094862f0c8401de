// The module of WebAssembly beside the same library in native code, in node and in Chromium, on one core.
//
//   scripts/build-library --target wasm64 module
//   gcc -O2 -Iinclude -o native bench/module.c build/lib/libbinary_field.a
//   node [--experimental-wasm-memory64] bench/module.mjs module/lib/binary_field.wasm ./native [ROUNDS] [BROWSER]
//
// Nanoseconds an element of each call, the least of the samples of so many rounds (5), in which the sides take turns. What was written
// is compared by its sum. BROWSER is the command of a Chromium.
import { spawnSync } from "node:child_process";
import fs from "node:fs";
import os from "node:os";
import path from "node:path";
import { measure } from "./module_rows.mjs";
import { Page, serve } from "../tests/web/browser.mjs";

const [module, native, rounds = "5", browser] = process.argv.slice(2);
const SAMPLES = 20;
const folder = fs.mkdtempSync(path.join(os.tmpdir(), "module-"));
fs.copyFileSync(new URL("module_rows.mjs", import.meta.url), path.join(folder, "module_rows.mjs"));
fs.copyFileSync(module, path.join(folder, "it.wasm"));
fs.writeFileSync(path.join(folder, "index.html"), "<!doctype html><title>rows</title>");
const compiled = await WebAssembly.compile(fs.readFileSync(module));

/** The rows of the program in C. */
function nativeRows() {
  const { stdout, status } = spawnSync(native, [String(SAMPLES)], { encoding: "utf8" });
  if (status) throw new Error(`${native}: status ${status}`);
  return stdout.trim().split("\n").map((line) => {
    const [name, each, sum] = line.split(" ");
    return { name, each: +each, sum: +sum };
  });
}

/** The rows of a page of the browser. */
async function browserRows(page) {
  const call = `import("./module_rows.mjs").then(async (it) => it.measure(
    await WebAssembly.compileStreaming(fetch("it.wasm")), ${SAMPLES}))`;
  return page.value(call);
}

const sides = [["native", nativeRows], ["node", () => measure(compiled, SAMPLES)]];
const { address, close } = await serve(folder);
const page = browser && (await Page.open(browser));
if (page) {
  await page.go(address);
  sides.push(["browser", () => browserRows(page)]);
}
const found = new Map();
for (let round = 0; round < Number(rounds); round++) {
  for (const [side, rows] of sides) {
    for (const { name, each, sum } of await rows()) {
      const row = found.get(name) ?? { sum, least: {} };
      if (row.sum !== sum) throw new Error(`${name}: ${side} writes something else`);
      row.least[side] = Math.min(row.least[side] ?? Infinity, each);
      found.set(name, row);
    }
  }
}
console.log(["call", ...sides.map(([side]) => side)].join("\t"));
for (const [name, { least }] of found) console.log([name, ...sides.map(([side]) => least[side].toPrecision(3))].join("\t"));
await page?.close();
close();
fs.rmSync(folder, { recursive: true });
