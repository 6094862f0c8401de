// The first part: a field, an operation and operands, with the answer as one types, and the multiplication table of the
// small fields.
const OPERATIONS = {
  add: { says: "sum", operands: 2, theorem: () => "sums-products-squares-powers-dot" },
  mul: { says: "product", operands: 2, theorem: productTheorem },
  square: { says: "square", operands: 1, theorem: () => "sums-products-squares-powers-dot" },
  inv: { says: "inverse", operands: 1, theorem: () => "a-nonzero-element-times-its" },
  sqrt: { says: "square root", operands: 1, theorem: () => "the-square-of-try_sqrt-is" },
};
const ERRORS = {
  "error 4": "an operand has another number of digits than an element, or a character that is no hexadecimal digit",
  "error 5": "an operand is no element of the field",
  "error 3": "an operand is missing, or there is one too many",
  "error 1": "there is no such field",
  "error 2": "there is no such operation",
};
// Tables are drawn of fields with at most so many elements.
const DRAWN = 256;
const FIRST = { t8: ["10", "10"], r8: ["57", "83"] };

const find = (id) => document.getElementById(id);

// Which row of the theorems says what a product is.
function productTheorem(field) {
  if (field.name === "p192") return "products-of-poly192-are-the";
  return /^(r8|p64|g128)$/.test(field.name) ? "products-of-rijndael8b-poly64-and" : "each-levels-product-is-the";
}

// How many hexadecimal digits an element has on a line.
const digitsOf = (field) => 2 * Math.ceil(field.bits / 8);

function option(value, text) {
  const made = document.createElement("option");
  made.value = value;
  made.textContent = text;
  return made;
}

export function startAsk(bf) {
  const fields = bf.fields.map((type) => bf[type]);
  const [choice, operation, left, right] = ["field", "operation", "left", "right"].map(find);
  choice.append(...fields.map((it) => option(it.name, `${it.type} (${it.name})`)));
  operation.append(...Object.entries(OPERATIONS).map(([name, { says }]) => option(name, `${says} (${name})`)));
  const chosen = () => fields.find((it) => it.name === choice.value);
  const table = new Table();

  const ask = () => {
    const [field, { operands, theorem }] = [chosen(), OPERATIONS[operation.value]];
    find("right-row").hidden = operands === 1;
    const words = [field.name, operation.value, left.value.trim(), ...(operands === 2 ? [right.value.trim()] : [])];
    const line = words.join(" ");
    const answer = bf.answer(line);
    find("answer").textContent = answer === "none"
      ? "none: zero has no inverse"
      : ERRORS[answer] ? `${answer}: ${ERRORS[answer]}` : answer;
    find("line").textContent = line;
    const row = theorem(field);
    find("theorem").href = `theorems.html#${row}`;
    find("theorem").dataset.row = row;
  };
  const changeField = () => {
    const field = chosen();
    find("field-about").textContent = `${field.about}. An element has ${digitsOf(field)} digits.`;
    const [x, y] = FIRST[field.name] ?? ["3", "2"].map(
      (it) => (field.bits === 1 ? "1" : it).padStart(digitsOf(field), "0")
    );
    [left.value, right.value] = [x, y];
    table.draw(field);
    ask();
  };
  choice.addEventListener("change", changeField);
  for (const it of [operation, left, right]) it.addEventListener("input", ask);
  find("ask-form").addEventListener("submit", (event) => event.preventDefault());
  [choice.value, operation.value] = ["t8", "mul"];
  table.onPoint = (x, y) => {
    const digits = digitsOf(chosen());
    [left.value, right.value] = [x, y].map((it) => it.toString(16).padStart(digits, "0"));
    operation.value = "mul";
    ask();
  };
  changeField();
}

/** The multiplication table as a picture, on which one can point. */
class Table {
  #canvas = find("table");
  #says = find("table-says");
  #size = 0;
  #products;
  #place = { x: 1, y: 1 };
  onPoint = () => {};

  constructor() {
    this.#canvas.addEventListener("pointermove", (event) => this.#move(...this.#under(event)));
    this.#canvas.addEventListener("click", (event) => this.#take(...this.#under(event)));
    this.#canvas.addEventListener("keydown", (event) => this.#key(event));
  }

  /** Draws the table of a field; of a large one there is no table. */
  draw(field) {
    this.#size = 2 ** Math.min(field.bits, 9);
    const isDrawn = this.#size <= DRAWN;
    find("table-figure").hidden = !isDrawn;
    if (!isDrawn) return;
    const numbers = Array.from({ length: this.#size ** 2 }, (_, at) => at);
    const [rows, columns] = [numbers.map((at) => Math.floor(at / this.#size)), numbers.map((at) => at % this.#size)];
    this.#products = field.multiply(field.array(rows), field.array(columns));
    const picture = new ImageData(this.#size, this.#size);
    this.#products.forEach((product, at) => {
      const share = product / (this.#size - 1);
      picture.data.set([20 + 210 * share, 40 + 190 * share, 90 + 140 * share, 255], 4 * at);
    });
    [this.#canvas.width, this.#canvas.height] = [this.#size, this.#size];
    this.#canvas.getContext("2d").putImageData(picture, 0, 0);
    this.#move(1, 1);
  }

  #under(event) {
    const box = this.#canvas.getBoundingClientRect();
    const at = (place, start, length) => Math.max(
      0, Math.min(this.#size - 1, Math.floor(((place - start) / length) * this.#size))
    );
    return [at(event.clientX, box.left, box.width), at(event.clientY, box.top, box.height)];
  }

  #move(x, y) {
    this.#place = { x, y };
    const digits = (number) => number.toString(16).padStart(2, "0");
    this.#says.textContent = `${digits(y)} times ${digits(x)} is ${digits(this.#products[y * this.#size + x])}.`;
  }

  #take(x, y) {
    this.#move(x, y);
    this.onPoint(y, x);
  }

  #key(event) {
    const step = { ArrowLeft: [-1, 0], ArrowRight: [1, 0], ArrowUp: [0, -1], ArrowDown: [0, 1] }[event.key];
    if (event.key === "Enter") this.#take(this.#place.x, this.#place.y);
    if (!step) return;
    event.preventDefault();
    const moved = (place, by) => (place + by + this.#size) % this.#size;
    this.#move(moved(this.#place.x, step[0]), moved(this.#place.y, step[1]));
  }
}
