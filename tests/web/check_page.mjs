// The page in headless Chromium, clicked through as a person would: check_page.mjs BROWSER FOLDER CASES [PICTURE].
// FOLDER has web/ and cases/ as scripts/test-web lays them out; CASES is a step for the replay of the cases in the
// browser. The programs `shards` and `secret` are taken from SHARDS and SECRET, if there.
import assert from "node:assert/strict";
import { spawnSync } from "node:child_process";
import { createHash, randomBytes } from "node:crypto";
import fs from "node:fs";
import os from "node:os";
import path from "node:path";
import { Page, serve } from "./browser.mjs";

const [browser, folder, step, picture] = process.argv.slice(2);
const { address, close } = await serve(folder);
const work = fs.mkdtempSync(path.join(os.tmpdir(), "page-"));
const page = await Page.open(browser);
const say = (text) => console.log(`check_page: ${text}`);
const { SHARDS, SECRET } = process.env;

/** What the page has to be within a second of the start of its load, on a machine that has little else to do. */
async function load() {
  await page.go(`${address}web/index.html`);
  await page.until(`document.documentElement?.dataset.state`);
  assert.equal(await page.value(`document.documentElement.dataset.state`), "ready", await page.text("#state"));
  const answered = await page.value(`Math.round(performance.now())`);
  assert.equal(await page.text("#answer"), "41");
  say(`the first answer was there ${answered} ms after the page was asked for`);
}

async function ask() {
  await page.choose("#field", "r8");
  assert.equal(await page.text("#answer"), "c1");
  await page.type("#right", "13");
  assert.equal(await page.text("#answer"), "fe");
  assert.equal(await page.text("#line"), "r8 mul 57 13");
  await page.choose("#operation", "inv");
  await page.type("#left", "53");
  assert.equal(await page.text("#answer"), "ca");
  assert.equal(await page.value(`document.querySelector("#right-row").checkVisibility()`), false);
  await page.type("#left", "00");
  assert.match(await page.text("#answer"), /^none/);
  await page.type("#left", "0g");
  assert.match(await page.text("#answer"), /^error 4: /);
  await page.choose("#operation", "mul");
  await page.choose("#field", "g128");
  await page.type("#left", "80000000000000000000000000000000");
  await page.type("#right", "00000000000000000000000000000002");
  assert.equal(await page.text("#answer"), "00000000000000000000000000000087");
  // Every field and operation has an answer, and a row of the theorems.
  const rows = await page.value(
    `(async () => (await (await fetch("theorems.html")).text()).match(/id="[^"]+"/g).map((it) => it.slice(4, -1)))()`
  );
  for (const field of await page.value(`[...document.querySelectorAll("#field option")].map((it) => it.value)`)) {
    await page.choose("#field", field);
    for (const operation of ["add", "mul", "square", "inv", "sqrt"]) {
      await page.choose("#operation", operation);
      assert.match(await page.text("#answer"), /^[0-9a-f]+$/, `${field} ${operation}`);
      assert.ok(
        rows.includes(await page.value(`document.querySelector("#theorem").dataset.row`)), `${field} ${operation}`
      );
    }
  }
  for (
    const it of await page.value(
      `[...document.querySelectorAll('a[href^="theorems.html#"]')].map((it) => it.hash.slice(1))`
    )
  ) assert.ok(rows.includes(it), it);
  // The table: a point by the pointer, and one by keys.
  await page.choose("#field", "t4");
  await page.choose("#operation", "add");
  await page.click("#table");
  const [, row, column] = (await page.text("#line")).match(/^t4 mul 0([78]) 0([78])$/);
  await page.value(`document.querySelector("#table").focus()`);
  await page.press("ArrowRight");
  assert.match(await page.text("#table-says"), new RegExp(`^0${row} times 0${+column + 1} is 0[0-9a-f]\\.$`));
  await page.press("Enter");
  assert.equal(await page.text("#line"), `t4 mul 0${row} 0${+column + 1}`);
}

const isDone = `document.querySelector("#progress").hidden`;
const says = () => page.text("#shards-say");

async function shards() {
  await page.click("#sample");
  await page.until(`!document.querySelector("#split").disabled`);
  await page.click("#split");
  await page.until(`document.querySelectorAll("#shard-list li").length === 6 && ${isDone}`);
  const identity = (await says()).match(/SHA-256 is ([0-9a-f]{64})/)[1];
  // By a click and by the keyboard.
  await page.click("#shard-list li:nth-child(1) button:nth-of-type(1)");
  await page.value(`document.querySelector("#shard-list li:nth-child(2) button:nth-of-type(2)").focus()`);
  await page.press(" ");
  assert.deepEqual(
    await page.value(`[...document.querySelectorAll("#shard-list .state")].slice(0, 3).map((it) => it.textContent)`),
    ["Shard 0, data: lost", "Shard 1, data: overwritten", "Shard 2, data: whole"]
  );
  await page.click("#restore");
  await page.until(`document.querySelector("#shards-say").textContent.includes("came back")`);
  assert.match(await says(), new RegExp(`${identity} is that of the file that was split`));
  await page.click("#shard-list li:nth-child(6) button:nth-of-type(1)");
  await page.click("#restore");
  await page.until(`document.querySelector("#shards-say").textContent.includes("cannot be done")`);
  assert.match(await says(), /3 shards are whole in stripe 0, and 4 are wanted/);
  await page.click("#shard-list li:nth-child(1) button:nth-of-type(1)");
  await page.click("#restore");
  await page.until(`document.querySelector("#shards-say").textContent.includes("came back")`);
}

/** Downloads go into a folder; the file of a name, once it is there. */
async function downloaded(name, act) {
  const file = path.join(work, name);
  await act();
  for (let tries = 0; tries < 500 && !fs.existsSync(file); tries++) {
    await new Promise((resolve) => setTimeout(resolve, 20));
  }
  return fs.readFileSync(file);
}

/** Shards of the page are joined by the program, and those of the program by the page. */
async function bothWays() {
  const content = randomBytes(123_457);
  const file = path.join(work, "archive.bin");
  fs.writeFileSync(file, content);
  await page.send("Browser.setDownloadBehavior", { behavior: "allow", downloadPath: work });
  await page.give("#file", [file]);
  await page.until(`document.querySelector("#shards-say").textContent.includes("archive.bin")`);
  await page.click("#split");
  await page.until(`document.querySelector("#shards-say").textContent.includes("archive.bin. Its SHA-256")`);
  // Four of six, the first one among the lost.
  for (const index of [1, 3, 4, 5]) {
    const made = await downloaded(
      `archive.bin.${index}`, () => page.click(`#shard-list li:nth-child(${index + 1}) button:nth-of-type(3)`)
    );
    assert.equal(made.length, 104 + 32 + Math.ceil(content.length / 4));
  }
  if (!SHARDS) return say("left out: shards of the program `shards`, which is not there");
  fs.rmSync(file);
  const run = (...words) => {
    const ran = spawnSync(SHARDS, words, { cwd: work, encoding: "utf8" });
    assert.equal(ran.status, 0, ran.stderr);
  };
  run("join", "archive.bin");
  assert.deepEqual(fs.readFileSync(file), content);
  for (const [data, parity] of [["3", "2"], ["200", "100"]]) {
    run("split", "archive.bin", data, parity, "--force");
    const left = Array.from({ length: +data }, (_, index) => path.join(work, `archive.bin.${index + +parity}`));
    await page.give("#shard-files", left);
    await page.until(`document.querySelector("#shards-say").textContent.includes("is the one that its shards name")`);
    assert.ok((await says()).includes(createHash("sha256").update(content).digest("hex")));
    await page.value(`document.querySelector("#shards-say").textContent = ""`);
  }
  say("the program `shards` joins shards of the page, and the page those of the program");
}

/** A large file goes through while the page stays alive: how often a timer of 20 ms fires in a second, the fewest and
 * as a rule. A machine with much else to do may starve a page for a second, and only work in the page itself does so
 * all the while. */
async function large(megabytes) {
  const file = path.join(work, "large.bin");
  fs.writeFileSync(file, randomBytes(megabytes * 1_000_000));
  await page.give("#file", [file]);
  await page.until(`document.querySelector("#shards-say").textContent.includes("large.bin")`);
  await page.value(
    `globalThis.ticks = [performance.now()]; globalThis.timer = setInterval(() => ticks.push(performance.now()), 20); 0`
  );
  await page.click("#split");
  await page.until(`document.querySelector("#shards-say").textContent.includes("large.bin. Its SHA-256")`, 240);
  const split = await says();
  await page.click("#shard-list li:nth-child(2) button:nth-of-type(1)");
  await page.click("#restore");
  await page.until(`document.querySelector("#shards-say").textContent.includes("came back")`, 240);
  await page.value(`clearInterval(timer)`);
  const longest = await page.value(`Math.max(...ticks.slice(1).map((it, at) => it - ticks[at]))`);
  // How often the timer fired in the second that began with each of its turns.
  const counts = await page.value(`ticks.filter((it) => it + 1000 <= ticks.at(-1))
    .map((from) => ticks.filter((it) => it >= from && it < from + 1000).length).sort((x, y) => x - y)`);
  const [fewest, middle] = [counts[0], counts[counts.length >> 1]];
  const [made, restored] = [split.match(/made in [^ ]* s/)[0], (await says()).match(/in ([^ ]* s)\./)[1]];
  const alive = `${middle} times a second and at least ${fewest}, and waited for ${Math.round(longest)} ms at most`;
  say(`${megabytes} MB: ${made}, restored in ${restored}; a timer of the page fired ${alive}`);
  // Cancelled in the middle, which leaves the page as it was.
  await page.click("#split");
  await page.until(`document.querySelector("#progress").value > 0.02`, 60);
  await page.click("#cancel");
  await page.until(`document.querySelector("#shards-say").textContent.includes("cancelled")`, 60);
  return middle;
}

async function transform() {
  assert.equal(await page.value(`document.querySelector("#transform-says").dataset.same`), "true");
  for (let stage = 0; stage < 3; stage++) await page.click("#forth");
  assert.match(await page.text("#transform-says"), /the same as those of the library's whole transform/);
  for (const field of ["t16", "t32", "t64", "g128"]) {
    for (const m of ["1", "2", "3", "4"]) {
      await page.choose("#transform-field", field);
      await page.type("#exponent", m);
      await page.type("#coefficients", "1 2 3 abc 0 5 6 7 8 9 a b c d e f");
      assert.equal(await page.value(`document.querySelector("#transform-says").dataset.same`), "true", `${field} ${m}`);
      assert.equal(await page.value(`document.querySelectorAll("#places tbody tr").length`), 2 ** m);
    }
  }
  await page.type("#coefficients", "xyz");
  assert.match(await page.text("#transform-says"), /^xyz is no element/);
  await page.choose("#transform-field", "t16");
  await page.type("#exponent", "3");
  await page.type("#coefficients", "0 0 0 0 0 1 0 0");
}

/** A secret is shared, lines are taken away and mistyped, and lines go to the program `secret` and back. */
async function secrets() {
  const says = () => page.text("#secret-says");
  const lines = () => page.value(`document.querySelector("#share-lines").value`);
  const give = async (left) => {
    await page.type("#share-lines", left);
    return page.text("#combined");
  };
  await page.type("#secret", "a kéy of no door");
  await page.type("#secret-shares", "6");
  await page.click("#secret-split");
  assert.match(await says(), /^6 shares, of which any 3 give the secret/);
  assert.equal(await page.text("#combined"), "as text: a kéy of no door");
  const all = (await lines()).trim().split("\n");
  assert.equal(all.length, 6);
  assert.ok(all.every((it, at) => it.startsWith(`share-1-1b030${at + 1}`) && it.length === all[0].length));
  for (let left = 5; left >= 3; left--) {
    await page.click("#secret-lose");
    assert.equal(await says(), `${left} shares give the secret.`);
    assert.equal(await page.text("#combined"), "as text: a kéy of no door");
  }
  await page.click("#secret-lose");
  assert.deepEqual(
    [await says(), await page.text("#combined")], ["There is no secret: there are fewer shares than are needed.", ""]
  );
  const capitals = all[0].toUpperCase().replace("SHARE", "share");
  assert.equal(await give(`\n${all[4]}\n\n${capitals}\n${all[2]}`), "as text: a kéy of no door");
  const mistyped = all[2].slice(0, 40) + (all[2][40] === "7" ? "8" : "7") + all[2].slice(41);
  const other = (await page.value(`(document.querySelector("#secret-split").click(), 0)`), (await lines()).split("\n"));
  assert.notEqual(other[0], all[0]);
  const wrong = [
    [[all[0], all[1], mistyped], "the share in line 3 is mistyped: its check sum is another"],
    [[all[0], all[1], `${all[2]}0`], "the share in line 3 is mistyped: its check sum is another"],
    [[all[0], "share-2-00"], "line 2 is no share"],
    [[all[0], other[1], all[2]], "the share in line 2 is of another set than the first"],
    [[all[0], all[1], all[1]], "two shares have one index"],
  ];
  for (const [given, reason] of wrong) {
    assert.equal(await give(given.join("\n")), "");
    assert.equal(await says(), `There is no secret: ${reason}.`);
    if (SECRET) assert.equal(secret(["combine"], `${given.join("\n")}\n`, 1).stderr.toString(), `secret: ${reason}\n`);
  }
  await page.choose("#secret-form", "hex");
  await page.type("#secret", "00 ff0a0");
  await page.click("#secret-split");
  assert.match(await says(), /no hexadecimal number of whole bytes/);
  await page.type("#secret-needed", "7");
  await page.type("#secret", "00ff0a00");
  await page.click("#secret-split");
  assert.match(await says(), /^At least 2 shares are needed/);
  await page.type("#secret-needed", "3");
  await page.click("#secret-split");
  assert.equal(await page.text("#combined"), "in hexadecimal: 00ff0a00");
  if (!SECRET) return say("left out: shares of the program `secret`, which is not there");
  const left = (await lines()).split("\n").slice(2, 5).join("\n");
  assert.deepEqual([...secret(["combine"], left).stdout], [0, 255, 10, 0]);
  for (const field of ["aes", "gfshare"]) {
    const words = ["split", "--shares", "9", "--needed", "4", "--field", field];
    const made = secret(words, "from the program").stdout.toString().split("\n");
    assert.equal(await give(made.slice(3, 8).join("\n")), "as text: from the program");
  }
  say("the program `secret` combines shares of the page, and the page those of the program");
}

// Runs the program `secret`.
function secret(words, input, status = 0) {
  const ran = spawnSync(SECRET, words, { input });
  assert.equal(ran.status, status, ran.stderr.toString());
  return ran;
}

/** Each control has a name, as a screen reader says it, and the focus goes through all of them. */
async function accessible() {
  const { nodes } = await page.send("Accessibility.getFullAXTree");
  const controls = nodes.filter(
    (it) => !it.ignored && /^(button|textbox|combobox|spinbutton|slider|link|application|progressbar|img)$/i.test(
      it.role?.value
    )
  );
  const unnamed = controls.filter((it) => !it.name?.value?.trim());
  assert.deepEqual(unnamed.map((it) => it.role.value), []);
  assert.ok(controls.length > 20, `${controls.length} controls`);
  assert.deepEqual(
    nodes.filter((it) => it.role?.value === "heading").map((it) => it.name.value).slice(0, 5),
    ["Binary fields, proved", "Ask", "Lose a shard", "See a transform", "Share a secret"]
  );
  await page.value(`document.activeElement.blur(), scrollTo(0, 0), getSelection().collapse(document.body, 0)`);
  const seen = new Set();
  for (let presses = 0; presses < 80; presses++) {
    await page.press("Tab");
    seen.add(await page.value(`document.activeElement.id || document.activeElement.textContent`));
  }
  for (
    const it of [
      "field",
      "operation",
      "left",
      "right",
      "table",
      "sample",
      "data",
      "parity",
      "split",
      "coefficients",
      "stage",
      "forth",
      "secret",
      "secret-needed",
      "share-lines",
      "secret-lose"
    ]
  ) assert.ok(seen.has(it), `${it} has no focus by the keyboard`);
  // Texts have the contrast of WCAG's level AA, and nothing is wider than a telephone, in light and in dark.
  for (const scheme of ["light", "dark"]) {
    await page.send("Emulation.setEmulatedMedia", { features: [{ name: "prefers-color-scheme", value: scheme }] });
    const least = await page.value(CONTRAST);
    assert.ok(least.ratio >= 4.5, `${scheme}: ${least.ratio} at ${least.text}`);
  }
  await page.send(
    "Emulation.setDeviceMetricsOverride", { width: 360, height: 740, deviceScaleFactor: 1, mobile: true }
  );
  assert.ok((await page.value(`document.documentElement.scrollWidth`)) <= 360, "the page is wider than a telephone");
  await page.send(
    "Emulation.setDeviceMetricsOverride", { width: 1000, height: 900, deviceScaleFactor: 1, mobile: false }
  );
  await page.send("Emulation.setEmulatedMedia", { features: [{ name: "prefers-color-scheme", value: "light" }] });
}

// The least contrast of a text with what is behind it, by WCAG's formula.
const CONTRAST = `(() => {
  const numbers = (color) => color.match(/[\\d.]+/g).map(Number);
  const light = (color) => numbers(color).slice(0, 3).map((it) => it / 255).map(
    (it) => (it <= 0.04045 ? it / 12.92 : ((it + 0.055) / 1.055) ** 2.4)
  ).reduce((sum, it, at) => sum + it * [0.2126, 0.7152, 0.0722][at], 0);
  const behind = (it) => {
    for (; it; it = it.parentElement) {
      const color = getComputedStyle(it).backgroundColor;
      if (numbers(color)[3] !== 0) return color;
    }
    return getComputedStyle(document.body).backgroundColor;
  };
  const texts = [
    ...document.querySelectorAll(
      "h1, h2, p, a, label, button:enabled, input, select, output, code, .state, .note, caption, th, td, summary"
    )
  ].filter((it) => it.checkVisibility() && (it.textContent || it.value) && !it.classList.contains("skip"));
  return texts.map(
    (it) => { const [a, b] = [light(getComputedStyle(it).color), light(behind(it))].sort((x, y) => y - x); return {
      ratio: (a + 0.05) / (b + 0.05), text: it.outerHTML.slice(0, 60),
    }; }
  ).reduce((least, it) => (it.ratio < least.ratio ? it : least));
})()`;

/** Every function by its definition, in the browser. */
async function cases() {
  await page.go(`${address}cases/cases.html?step=${step}`);
  await page.until(`["right", "wrong"].includes(document.title)`, 300);
  for (const it of (await page.text("pre")).trim().split("\n")) say(`in the browser: ${it}`);
  assert.equal(await page.value("document.title"), "right");
}

try {
  await load();
  await ask();
  await transform();
  await secrets();
  await shards();
  await accessible();
  if (picture) {
    await page.choose("#field", "t4");
    await page.choose("#operation", "mul");
    await page.send(
      "Emulation.setDeviceMetricsOverride", { width: 1000, height: 3180, deviceScaleFactor: 1, mobile: false }
    );
    await page.value("document.activeElement.blur(), scrollTo(0, 0)");
    await page.picture(picture);
    await page.send(
      "Emulation.setDeviceMetricsOverride", { width: 1000, height: 900, deviceScaleFactor: 1, mobile: false }
    );
  }
  await bothWays();
  assert.ok((await large(100)) >= 10, "a timer of the page fired less than ten times in a second");
  assert.deepEqual(page.messages, []);
  const others = page.requests.filter((it) => !/^(blob|data):/.test(it) && !it.startsWith(address));
  assert.deepEqual(others, [], "the page asked for other places");
  await cases();
  assert.deepEqual(page.messages, []);
  say("everything was as it has to be");
} catch (error) {
  for (const it of page.messages) say(`the page said: ${it}`);
  throw error;
} finally {
  await page.close();
  close();
  fs.rmSync(work, { recursive: true, force: true });
}
