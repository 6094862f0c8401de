// Runs the blocks `js` of pages over the package, as a program of their readers', and compares what stands as `// 0x87n` behind an
// expression: check_blocks.mjs PACKAGE PAGE ..
import assert from "node:assert/strict";
import { mkdtempSync, mkdirSync, readFileSync, rmSync, symlinkSync, writeFileSync } from "node:fs";
import { tmpdir } from "node:os";
import { join, resolve } from "node:path";
import { pathToFileURL } from "node:url";

const [, , folder, ...pages] = process.argv;
const work = mkdtempSync(join(tmpdir(), "blocks-"));
try {
  mkdirSync(join(work, "node_modules"));
  symlinkSync(resolve(folder), join(work, "node_modules", "binary-field"));
  let number = 0;
  let compared = 0;
  globalThis.compare = (found, wanted) => {
    assert.deepEqual(found, wanted);
    compared += 1;
  };
  for (const page of pages) {
    for (const [, text] of readFileSync(page, "utf8").matchAll(/^```js\n(.*?)^```$/gms)) {
      const lines = text.split("\n").map((line) => line.replace(/^(?!const |import )(.*);\s*\/\/ (0x[0-9a-f]+n|"[^"]*")(?:,.*|)$/, "compare($1, $2);"));
      number += 1;
      const place = join(work, `block${number}.mjs`);
      writeFileSync(place, lines.join("\n"));
      await import(pathToFileURL(place));
    }
  }
  assert.ok(number >= pages.length && compared >= pages.length, `${number} blocks, ${compared} results compared`);
  console.log(`${number} blocks of ${pages.length} pages, ${compared} results compared`);
} finally {
  rmSync(work, { recursive: true });
}
