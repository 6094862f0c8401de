// The page and every function in headless Firefox, gone through by a script in a frame around it:
// check_firefox.mjs BROWSER FOLDER CASES. FOLDER has web/ and cases/ as scripts/test-web lays them out.
import { spawn } from "node:child_process";
import fs from "node:fs";
import os from "node:os";
import path from "node:path";
import { serve } from "./browser.mjs";

const [program, folder, step] = process.argv.slice(2);
const SECONDS = 400;
const profile = fs.mkdtempSync(path.join(os.tmpdir(), "firefox-"));
fs.writeFileSync(
  path.join(profile, "user.js"),
  ["app.update.enabled", "browser.shell.checkDefaultBrowser", "datareporting.policy.dataSubmissionEnabled"].map(
    (it) => `user_pref("${it}", false);\n`
  ).join("")
);
let onReport;
const reported = new Promise((resolve) => (onReport = resolve));
const { address, close } = await serve(folder, onReport);
const words = ["--headless", "--no-remote", "--profile", profile, `${address}cases/frame.html?step=${step}`];
const browser = spawn(program, words, { stdio: "ignore", env: { ...process.env, HOME: profile } });
const ended = new Promise((resolve) => browser.once("exit", resolve).once("error", resolve));
const tooLate = `nothing within ${SECONDS} s\nwrong`;
const late = new Promise((resolve) => setTimeout(resolve, 1000 * SECONDS, tooLate).unref());
const lines = (await Promise.race([reported, late, ended.then(() => "Firefox ended by itself\nwrong")])).split("\n");
const verdict = lines.pop();
for (const it of lines) console.log(`check_firefox: ${it}`);
browser.kill();
await ended;
close();
fs.rmSync(profile, { recursive: true, force: true, maxRetries: 5 });
if (verdict !== "right") process.exit(1);
console.log("check_firefox: everything was as it has to be");
