// Every function by its definition, in node: check_cases.mjs MODULE CASES [STEP]. MODULE lies in a folder with the
// package and this folder's files beside it, as scripts/test-web lays them out.
import fs from "node:fs";
import readline from "node:readline";
import { Reader, replay } from "./replay.mjs";

const [module, cases, step = "1"] = process.argv.slice(2);
const compiled = await WebAssembly.compile(fs.readFileSync(module));
const ways = await Promise.all(
  ["module", "package"].map(
    async (way) => [way, replay(await WebAssembly.instantiate(compiled, {}), way, Number(step))]
  )
);
const reader = new Reader((it) => ways.forEach(([, found]) => found.run(it)));
for await (const line of readline.createInterface({ input: fs.createReadStream(cases) })) reader.line(line);
reader.end();
let isRight = true;
for (const [way, found] of ways) {
  const [text, isWhole] = found.text();
  console.log(`check_cases: by the ${way}: ${text}`);
  isRight &&= isWhole;
}
process.exit(isRight ? 0 : 1);
