// The page in a frame, gone through by this script beside it, for a browser that no pipe drives:
// frame.html?step=CASES. What it found is posted to /report: lines, the last of which is "right" or "wrong".
const frame = document.getElementById("frame");
const said = [];
const require = (holds, what) => {
  if (!holds) throw new Error(what);
};

/** Waits until something is true. */
async function until(holds, what, seconds = 60) {
  for (const end = performance.now() + 1000 * seconds; !holds(); ) {
    require(performance.now() < end, `not within ${seconds} s: ${what}`);
    await new Promise((resolve) => setTimeout(resolve, 20));
  }
}

const find = (selector) => frame.contentDocument.querySelector(selector);
const text = (selector) => find(selector).textContent;
// Values are put as a person would: the page hears of them.
function put(selector, value) {
  find(selector).value = value;
  for (const name of ["input", "change"]) find(selector).dispatchEvent(new Event(name, { bubbles: true }));
}

async function goThrough() {
  const began = performance.now();
  frame.src = "../web/index.html";
  await until(() => frame.contentDocument?.documentElement?.dataset.state, "the page is there");
  require(frame.contentDocument.documentElement.dataset.state === "ready", text("#state"));
  frame.contentWindow.addEventListener("error", (event) => said.push(`the page said: ${event.message}`));
  frame.contentWindow.addEventListener("unhandledrejection", (event) => said.push(`the page said: ${event.reason}`));
  require(text("#answer") === "41", `the first answer is ${text("#answer")}`);
  said.push(`the first answer was there after ${Math.round(performance.now() - began)} ms`);
  put("#field", "r8");
  require(text("#answer") === "c1", `57 times 83 is ${text("#answer")}`);
  for (let stage = 0; stage < 3; stage++) find("#forth").click();
  require(find("#transform-says").dataset.same === "true", "the values of the last stage");
  put("#secret", "a kéy of no door");
  find("#secret-split").click();
  const lines = find("#share-lines").value.trim().split("\n");
  put("#share-lines", lines.slice(2).join("\n"));
  require(text("#combined") === "as text: a kéy of no door", `the secret is ${text("#combined")}`);
  put("#share-lines", lines.slice(3).join("\n"));
  require(text("#secret-says").includes("fewer shares than are needed"), text("#secret-says"));
  find("#sample").click();
  find("#split").click();
  await until(() => text("#shards-say").includes("Its SHA-256"), "shards are made");
  for (const shard of [1, 5]) find(`#shard-list li:nth-child(${shard}) button`).click();
  find("#restore").click();
  await until(() => text("#shards-say").includes("came back"), "the file is back");
  require(text("#shards-say").includes("is that of the file that was split"), text("#shards-say"));
  frame.src = `cases.html${location.search}`;
  await until(() => /^(right|wrong)$/.test(frame.contentDocument?.title), "the cases were replayed", 300);
  said.push(...text("pre").trim().split("\n"));
  require(frame.contentDocument.title === "right", "a case went wrong");
  require(!said.some((it) => it.startsWith("the page said")), "the page had errors");
}

let ended = "right";
try {
  await goThrough();
} catch (error) {
  said.push(`${error}`, `${error.stack}`);
  ended = "wrong";
}
await fetch("/report", { method: "POST", body: [...said, ended].join("\n") });
