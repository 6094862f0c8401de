// The third part: the stages of an additive transform, one by one. The library computes each product and sum, and what
// the last stage leaves is compared with its own whole transform.
import { CANTOR_VECTORS } from "./binary_field/tables.mjs";

const find = (id) => document.getElementById(id);
const NAMES = ["t16", "t32", "t64", "g128"];
const [ROW, LEFT, STEP] = [34, 70, 190];

/** The Cantor vectors of a field: those of the tower, or their images. */
function cantorVectors(bf, field) {
  if (field.name !== "g128") return field.array(CANTOR_VECTORS);
  return bf.BinaryField128.toPartner(bf.BinaryField128.array(CANTOR_VECTORS));
}

/** The sum of the vectors at the set bits of a number. */
const sumAt = (field, vectors, number) => vectors.reduce(
  (sum, it, at) => ((number >> at) & 1 ? field.add(sum, it) : sum), 0
);

/** The places before the first stage and behind each, and the factors of each stage: factor of a block is s_j of its
 * first point, and s_j takes Cantor vector b to vector b - j. */
export function stagesOf(bf, field, coefficients) {
  const m = Math.log2(coefficients.length);
  const vectors = field.elements(cantorVectors(bf, field));
  const places = [...coefficients];
  const stages = [{ places: [...places], factors: [] }];
  for (let j = m - 1; j >= 0; j--) {
    const factors = [];
    for (let start = 0; start < places.length; start += 2 << j) {
      const factor = sumAt(field, vectors.slice(0, m), start >> j);
      factors.push(factor);
      for (let low = start; low < start + (1 << j); low++) {
        const high = low + (1 << j);
        places[low] = field.add(places[low], field.multiply(factor, places[high]));
        places[high] = field.add(places[high], places[low]);
      }
    }
    stages.push({ places: [...places], factors, j });
  }
  return stages;
}

function svg(name, attributes, text) {
  const made = document.createElementNS("http://www.w3.org/2000/svg", name);
  for (const [key, value] of Object.entries(attributes)) made.setAttribute(key, value);
  if (text !== undefined) made.textContent = text;
  return made;
}

export function startTransform(bf) {
  const fields = NAMES.map((name) => bf[bf.fields.find((type) => bf[type].name === name)]);
  const choice = find("transform-field");
  for (const field of fields) {
    const made = document.createElement("option");
    [made.value, made.textContent] = [field.name, `${field.type} (${field.name})`];
    choice.append(made);
  }
  const part = new TransformPart(bf, () => fields.find((it) => it.name === choice.value));
  choice.addEventListener("change", () => part.compute());
  for (const id of ["exponent", "coefficients"]) find(id).addEventListener("input", () => part.compute());
  find("stage").addEventListener("input", () => part.show());
  find("back").addEventListener("click", () => part.step(-1));
  find("forth").addEventListener("click", () => part.step(1));
  find("coefficients").value = "0 0 0 0 0 1 0 0";
  part.compute();
}

class TransformPart {
  #bf;
  #field;
  #stages = [];
  #isSame = false;

  constructor(bf, field) {
    [this.#bf, this.#field] = [bf, field];
  }

  /** Computes all stages anew. */
  compute() {
    const [field, m] = [this.#field(), find("exponent").valueAsNumber];
    const words = find("coefficients").value.trim().split(/[\s,]+/).filter(Boolean);
    const wrong = !(Number.isInteger(m) && m >= 1 && m <= 4)
      ? "m is a whole number from 1 to 4"
      : words.find((it) => !/^[0-9a-f]+$/i.test(it) || it.length * 4 > Math.max(field.bits, 4));
    if (wrong) {
      this.#stages = [];
      find("transform-says").textContent = wrong.startsWith("m is")
        ? `${wrong}.`
        : `${wrong} is no element of ${field.type}.`;
      return;
    }
    const read = (word) => (field.bits < 64 ? Number(`0x${word}`) : BigInt(`0x${word}`));
    const zero = field.bits < 64 ? 0 : 0n;
    const coefficients = Array.from({ length: 2 ** m }, (_, at) => (at < words.length ? read(words[at]) : zero));
    this.#stages = stagesOf(this.#bf, field, coefficients);
    const whole = field.elements(field.transform(field.array(coefficients)));
    this.#isSame = whole.every((it, at) => it === this.#stages[m].places[at]);
    const stage = find("stage");
    stage.max = m;
    if (stage.valueAsNumber > m) stage.value = m;
    this.show();
  }

  /** Goes one stage forth or back. */
  step(by) {
    const stage = find("stage");
    stage.valueAsNumber = Math.max(0, Math.min(Number(stage.max), stage.valueAsNumber + by));
    this.show();
  }

  /** Shows the stage that is chosen. */
  show() {
    if (!this.#stages.length) return;
    const at = find("stage").valueAsNumber;
    const m = this.#stages.length - 1;
    const { j, factors } = this.#stages[at];
    const text = (it) => it.toString(16);
    const compared = this.#isSame ? "the same as" : "OTHER THAN";
    find("stage").setAttribute("aria-valuetext", at ? `behind stage ${j}` : "before the first stage");
    find("transform-says").textContent = !at
      ? "Before the first stage the places have the coefficients."
      : `Behind stage ${j}: in each pair that is ${1 << j} apart the lower got the upper times a factor ` +
        `(${factors.map(text).join(", ")}), and the upper then the lower.` +
        (at < m ? "" : ` These are the values, and ${compared} those of the library's whole transform.`);
    find("transform-says").dataset.same = this.#isSame;
    this.#draw(at);
    this.#list(at);
  }

  #draw(at) {
    const picture = find("butterflies");
    const m = this.#stages.length - 1;
    const count = 2 ** m;
    const [width, height] = [LEFT + m * STEP + 60, ROW * count + 30];
    picture.setAttribute("viewBox", `0 0 ${width} ${height}`);
    picture.setAttribute("width", width);
    picture.setAttribute("height", height);
    const made = [];
    const y = (place) => 24 + ROW * place;
    for (let column = 0; column < m; column++) {
      const { j, factors } = this.#stages[column + 1];
      const [from, to] = [LEFT + column * STEP + 20, LEFT + (column + 1) * STEP - 40];
      const kind = column < at ? "wire done" : "wire";
      for (let place = 0; place < count; place++) {
        const other = place ^ (1 << j);
        made.push(
          svg("line", { class: kind, x1: from, y1: y(place), x2: to, y2: y(place) }),
          svg("line", { class: kind, x1: from, y1: y(place), x2: to, y2: y(other) })
        );
        if (!(place & (1 << j))) {
          made.push(
            svg("text", { class: "factor", x: from + 4, y: y(place) - 5 }, `× ${short(factors[place >> (j + 1)])}`)
          );
        }
      }
    }
    for (let column = 0; column <= at; column++) {
      this.#stages[column].places.forEach((it, place) => {
        made.push(svg("text", { x: LEFT + column * STEP - 32, y: y(place) + 5 }, short(it)));
      });
    }
    for (let place = 0; place < count; place++) {
      made.push(svg("text", { class: "factor", x: 4, y: y(place) + 4 }, String(place)));
    }
    picture.replaceChildren(...made);
  }

  #list(at) {
    const cell = (name, text) => {
      const made = document.createElement(name);
      made.textContent = text;
      if (name === "th") made.scope = "col";
      return made;
    };
    const row = (cells) => {
      const made = document.createElement("tr");
      made.append(...cells);
      return made;
    };
    const shown = this.#stages.slice(0, at + 1);
    const heads = ["place", ...shown.map(({ j }) => (j === undefined ? "coefficient" : `behind stage ${j}`))];
    find("places").tHead.replaceChildren(row(heads.map((it) => cell("th", it))));
    find("places").tBodies[0].replaceChildren(
      ...shown[0].places.map(
        (_, place) => row([cell("td", place), ...shown.map(({ places }) => cell("td", places[place].toString(16)))])
      ),
    );
  }
}

/** An element that fits beside a wire. */
function short(element) {
  const text = element.toString(16);
  return text.length > 6 ? `${text.slice(0, 5)}…` : text;
}
