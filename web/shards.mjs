// The second part: a file is split into shards, some are lost or overwritten, and it is restored. The work is done in a
// worker.
import { Background } from "./binary_field/background.mjs";

const find = (id) => document.getElementById(id);
// How many bytes of a shard are overwritten, from the middle on.
const OVERWRITTEN = 16;
const SAMPLE_BYTES = 300_000;

function button(text, act) {
  const made = document.createElement("button");
  made.type = "button";
  made.textContent = text;
  made.addEventListener("click", act);
  return made;
}

/** Hands a blob to the person as a file. */
function save(blob, name) {
  const link = document.createElement("a");
  link.href = URL.createObjectURL(blob);
  link.download = name;
  link.click();
  setTimeout(() => URL.revokeObjectURL(link.href), 60_000);
}

const bytesText = (count) => (
  count < 10_000
    ? `${count} bytes`
    : count < 10_000_000 ? `${Math.round(count / 1000)} kB` : `${Math.round(count / 1_000_000)} MB`
);

export function startShards(bf) {
  new ShardsPart(new Background(bf.module));
}

class ShardsPart {
  #background;
  #file = null;
  #name = "file";
  // Of each shard its bytes, whether it is lost, and whether it was overwritten.
  #shards = [];
  #identity = "";
  #controller = null;
  #restored = null;

  constructor(background) {
    this.#background = background;
    find("file").addEventListener("change", (event) => this.#take(event.target.files[0]));
    find("sample").addEventListener("click", () => this.#take(sampleFile()));
    find("split").addEventListener("click", () => this.#split());
    find("restore").addEventListener("click", () => this.#restore());
    find("cancel").addEventListener(
      "click", () => this.#controller?.abort(new DOMException("The work was cancelled.", "AbortError"))
    );
    find("shard-files").addEventListener("change", (event) => this.#joinFiles([...event.target.files]));
    const drop = find("drop");
    const over = (is) => (event) => {
      event.preventDefault();
      drop.classList.toggle("over", is);
    };
    drop.addEventListener("dragover", over(true));
    drop.addEventListener("dragleave", over(false));
    drop.addEventListener("drop", (event) => {
      over(false)(event);
      this.#take(event.dataTransfer.files[0]);
    });
  }

  #take(file) {
    if (!file) return;
    [this.#file, this.#name] = [file, file.name];
    find("split").disabled = false;
    this.#say(`${file.name} has ${bytesText(file.size)}.`);
  }

  #say(text) {
    find("shards-say").textContent = text;
  }

  // Does work in the worker, with its progress and a button that cancels it.
  async #work(what, task) {
    this.#controller?.abort();
    const controller = (this.#controller = new AbortController());
    const progress = find("progress");
    [progress.hidden, progress.value, find("cancel").hidden] = [false, 0, false];
    const began = performance.now();
    this.#say(`${what} …`);
    try {
      const result = await task({ signal: controller.signal, onProgress: (done) => (progress.value = done) });
      return { result, seconds: ((performance.now() - began) / 1000).toFixed(1) };
    } catch (error) {
      this.#say(error.name === "AbortError" ? error.message : `That cannot be done: ${error.message}.`);
      return null;
    } finally {
      [progress.hidden, find("cancel").hidden] = [true, true];
    }
  }

  async #split() {
    const [data, parity] = ["data", "parity"].map((id) => find(id).valueAsNumber);
    const done = await this.#work("Splitting", (options) => this.#background.split(this.#file, data, parity, options));
    if (!done) return;
    const { identity, shards } = done.result;
    this.#identity = identity;
    this.#shards = shards.map((whole) => ({ whole, blob: whole, isLost: false, isChanged: false }));
    find("restore").disabled = false;
    this.#show();
    const made = `${shards.length} shards of ${bytesText(shards[0].size)}, made in ${done.seconds} s`;
    this.#say(`${made}. Any ${data} of them restore ${this.#name}. Its SHA-256 is ${identity}.`);
  }

  #show() {
    const list = find("shard-list");
    const data = find("data").valueAsNumber;
    list.replaceChildren(
      ...this.#shards.map((shard, index) => {
        const item = document.createElement("li");
        item.className = shard.isLost ? "lost" : shard.isChanged ? "changed" : "";
        const state = document.createElement("span");
        state.className = "state";
        const is = shard.isLost ? "lost" : shard.isChanged ? "overwritten" : "whole";
        state.textContent = `Shard ${index}, ${index < data ? "data" : "parity"}: ${is}`;
        const act = (change) => () => {
          const focused = [...item.querySelectorAll("button")].indexOf(document.activeElement);
          change();
          this.#show();
          // The list is made anew, and the focus stays where it was.
          list.children[index].querySelectorAll("button")[Math.max(0, focused)]?.focus();
        };
        const lose = button(shard.isLost ? "Bring back" : "Lose", act(() => (shard.isLost = !shard.isLost)));
        const change = button(shard.isChanged ? "Undo" : "Overwrite", act(() => overwrite(shard)));
        const keep = button("Download", () => save(shard.blob, `${this.#name}.${index}`));
        for (const it of [lose, change, keep]) it.setAttribute("aria-label", `${it.textContent} shard ${index}`);
        item.append(state, lose, change, keep);
        return item;
      }),
    );
  }

  async #restore() {
    const left = this.#shards.filter((it) => !it.isLost).map((it) => it.blob);
    const done = await this.#work("Restoring", (options) => this.#background.join(left, options));
    if (!done) return;
    this.#offer(done);
  }

  async #joinFiles(files) {
    if (!files.length) return;
    this.#name = files[0].name.replace(/\.\d+$/, "");
    this.#identity = "";
    const done = await this.#work("Joining", (options) => this.#background.join(files, options));
    if (done) this.#offer(done);
  }

  // Says what came back, and hands it over.
  #offer({ result: { identity, file }, seconds }) {
    this.#restored = file;
    const compared = !this.#identity
      ? "is the one that its shards name"
      : identity === this.#identity
        ? "is that of the file that was split"
        : "is another than that of the file that was split";
    this.#say(`${bytesText(file.size)} came back in ${seconds} s. The SHA-256 ${identity} ${compared}. `);
    find("shards-say").append(button(`Download ${this.#name}`, () => save(this.#restored, this.#name)));
  }
}

// Overwrites some bytes of a shard, or gives them back.
function overwrite(shard) {
  shard.isChanged = !shard.isChanged;
  const middle = Math.floor((shard.whole.size - OVERWRITTEN) / 2);
  const other = new Uint8Array(OVERWRITTEN).fill(0x55);
  shard.blob = shard.isChanged
    ? new Blob([shard.whole.slice(0, middle), other, shard.whole.slice(middle + OVERWRITTEN)])
    : shard.whole;
}

/** A file of lines that can be recognised once it is back. */
function sampleFile() {
  let text = "";
  for (let line = 1; text.length < SAMPLE_BYTES; line++) text += `Line ${line} of a file that was split into shards.\n`;
  return new File([text], "sample.txt");
}
