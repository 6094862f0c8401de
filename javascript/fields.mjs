// The fields: arithmetic on single elements and on arrays of them.
//
// An element is a number up to 32 bits, and a BigInt of 64, 128 and 192. An array of elements is a Uint8Array,
// Uint16Array, Uint32Array or BigUint64Array; in the last one an element of 128 bits has two words and one of 192 bits
// three, the lowest first.
import { lengthOf, typeOfArray, wholeNumber } from "./memory.mjs";
import { FIELDS } from "./tables.mjs";

const ARRAYS = { u8: Uint8Array, u16: Uint16Array, u32: Uint32Array };
const WORD_BITS = 64n;
const LOW_WORD = (1n << WORD_BITS) - 1n;
const isElement = (value) => typeof value === "number" || typeof value === "bigint";

/** A field by its row of the table. All fields have these functions; where a result is an array, `{ out }` is one
 * that it is written to, which may be one of the arrays that are read. */
export class Field {
  #library;
  #row;

  constructor(library, row) {
    this.#library = library;
    this.#row = row;
    /** The name in C and on lines, as "g128". */
    this.name = row.name;
    /** The name of the type, as "Ghash128". */
    this.type = row.type;
    /** How many bits an element has. */
    this.bits = row.bits;
    /** What the field is. */
    this.about = row.about;
    /** The type of arrays of elements. */
    this.Array = ARRAYS[row.word] ?? BigUint64Array;
    /** How many words of such an array an element has. */
    this.words = Math.ceil(row.bits / 64);
    /** Matrices over the field, whose elements stand row after row. */
    this.matrix = new Matrices(this, library);
    Object.freeze(this);
  }

  /** An array of that many zeros. */
  zeros(count) {
    return new this.Array(Number(wholeNumber(count, 40, "the number of elements")) * this.words);
  }

  /** An array of elements. */
  array(elements) {
    const numbers = Array.from(elements, (it) => wholeNumber(it, this.bits, `an element of ${this.type}`));
    const result = this.zeros(numbers.length);
    numbers.forEach((number, at) => this.#put(result, at, number));
    return result;
  }

  /** The elements of an array. */
  elements(array) {
    const count = this.#countOf(array, "the array");
    return Array.from({ length: count }, (_, at) => this.#get(array, at));
  }

  /** How many elements an array has. */
  count(array) {
    return this.#countOf(array, "the array");
  }

  /** The sum of two elements, or at each place of two arrays. */
  add(left, right, options) {
    return this.#onTwo("add", left, right, options);
  }

  /** The product of two elements, at each place of two arrays, or of each element of an array and one element. */
  multiply(left, right, options) {
    if (isElement(left) !== isElement(right)) {
      return isElement(right) ? this.multiplyBy(left, right, options) : this.multiplyBy(right, left, options);
    }
    return this.#onTwo("multiply", left, right, options);
  }

  /** The product of each element of an array and one element. */
  multiplyBy(values, scalar, options) {
    return this.#written(
      "multiply_by", lengthOf(this.#known(values)), options, (out) => [values, this.#scalar(scalar), out]
    );
  }

  /** Adds the product of one element and each element of values to the element of sums at its place, and returns
   * sums. */
  addScaled(sums, scalar, values) {
    this.#library.call(`${this.name}_add_scaled`, sums, this.#scalar(scalar), values);
    return sums;
  }

  /** The square of an element, or of each element of an array. */
  square(values, options) {
    return this.#onEach("square", values, options);
  }

  /** The inverse of an element, or of each element of an array; 0 has 0. */
  inverse(values, options) {
    return this.#onEach("batch_inverse", values, options);
  }

  /** The square root of an element, or of each element of an array. */
  squareRoot(values, options) {
    return this.#onEach("square_root", values, options);
  }

  /** An element, or each element of an array, to the power of the exponent, which is below 2^64; to the power 0 it is
   * 1. */
  power(values, exponent, options) {
    return this.#onEach("power", values, options, [exponent]);
  }

  /** The product of all elements of an array, 1 of none. */
  product(values) {
    return this.#result("product", (out) => [values, out]);
  }

  /** The sum of the products at each place of two arrays, 0 of none. */
  dot(left, right) {
    return this.#result("dot_product", (out) => [left, right, out]);
  }

  /** The value of the polynomial with these coefficients, the constant one first, at a point or at each point of an
   * array. */
  evaluate(coefficients, points, options) {
    if (isElement(points)) return this.#get(this.evaluate(coefficients, this.array([points])), 0);
    return this.#written("evaluate", lengthOf(this.#known(points)), options, (out) => [coefficients, points, out]);
  }

  /** The generator of the field's multiplicative group that the library names. */
  get generator() {
    return this.#result("generator", (out) => [out]);
  }

  /** The values at 2^m points of the polynomial with these coefficients in the basis of subspace polynomials: point p
   * is the shift, and Cantor vector b for each set bit b of p. The field is g128 or a level of the tower of 16 bits
   * or more. */
  transform(coefficients, shift = 0n, options) {
    return this.#transformed("transform", coefficients, shift, options);
  }

  /** The coefficients that `transform` takes to these values. */
  inverseTransform(values, shift = 0n, options) {
    return this.#transformed("inverse_transform", values, shift, options);
  }

  /** The images of elements in the isomorphic field in the other basis, as of t128 in g128. */
  toPartner(values, options) {
    if (!this.#row.partner) throw new TypeError(`${this.type} has no isomorphic field in another basis here`);
    return this.#onEach(`to_${this.#row.partner}`, values, options);
  }

  // The array, where it is one of the field's.
  #known(values, what = "values") {
    if (typeOfArray(values) !== this.Array.name) {
      throw new TypeError(`${this.type}: ${what} has to be a ${this.Array.name}`);
    }
    return values;
  }

  #countOf(array, what) {
    const words = lengthOf(this.#known(array, what));
    if (words % this.words) {
      throw new RangeError(`${this.type}: ${what} has ${words} words, which are not whole elements of ${this.words}`);
    }
    return words / this.words;
  }

  // An element as a BigInt; the library refuses one that is none of the field.
  #scalar(value) {
    return wholeNumber(value, this.bits, `an element of ${this.type}`);
  }

  #put(array, at, number) {
    if (this.bits < 64) array[at] = Number(number);
    else for (
      let word = 0; word < this.words; word++
    ) array[at * this.words + word] = (number >> (WORD_BITS * BigInt(word))) & LOW_WORD;
  }

  #get(array, at) {
    if (this.bits < 64) return array[at];
    let number = 0n;
    for (let word = this.words - 1; word >= 0; word--) number = (number << WORD_BITS) | array[at * this.words + word];
    return number;
  }

  // The array that a call writes to, of so many words: that of the options, or a new one.
  #out(words, options) {
    if (options?.out === undefined) return new this.Array(words);
    return this.#known(options.out, "out");
  }

  #written(name, words, options, argumentsOf) {
    const out = this.#out(words, options);
    this.#library.call(`${this.name}_${name}`, ...argumentsOf(out));
    return out;
  }

  #result(name, argumentsOf) {
    const out = this.zeros(1);
    this.#library.call(`${this.name}_${name}`, ...argumentsOf(out));
    return this.#get(out, 0);
  }

  #onEach(name, values, options, more = []) {
    if (isElement(values)) return this.#get(this.#onEach(name, this.array([values]), undefined, more), 0);
    return this.#written(name, lengthOf(this.#known(values)), options, (out) => [values, ...more, out]);
  }

  #onTwo(name, left, right, options) {
    if (isElement(left) && isElement(right)) {
      return this.#get(this.#onTwo(name, this.array([left]), this.array([right])), 0);
    }
    return this.#written(name, lengthOf(this.#known(left, "the first operand")), options, (out) => [left, right, out]);
  }

  #transformed(name, values, shift, options) {
    if (!this.#row.isTransformed) throw new TypeError(`the library has no transform over ${this.type}`);
    const out = this.#out(lengthOf(this.#known(values)), options);
    if (lengthOf(out) !== lengthOf(values)) {
      throw new RangeError(`${this.type}: out has another length than what is transformed`);
    }
    // The library works in place, and keeps what it is given where it refuses it.
    const own = this.Array.from(values);
    this.#library.call(`${this.name}_${name}`, own, this.#scalar(shift));
    out.set(own);
    return out;
  }
}

/** Matrices over a field. */
class Matrices {
  #field;
  #library;

  constructor(field, library) {
    this.#field = field;
    this.#library = library;
    Object.freeze(this);
  }

  /** The product of left, of rows rows of inner elements, and right, of inner rows of columns elements. */
  multiply(left, right, rows, inner, columns) {
    const product = this.#entries(rows, columns);
    this.#call("multiply", left, right, product, rows, inner, columns);
    return product;
  }

  /** The reduced row echelon form of a matrix of rows rows of columns elements, and the columns of its leading
   * entries. */
  rowReduce(matrix, rows, columns) {
    const [form, pivots, rank] = [matrix.slice(), this.#places(rows), new BigUint64Array(1)];
    this.#call("row_reduce", form, rows, columns, pivots, rank);
    return { matrix: form, pivots: Array.from(pivots.subarray(0, Number(rank[0])), Number) };
  }

  /** The rank of a matrix of rows rows of columns elements. */
  rank(matrix, rows, columns) {
    const rank = new BigUint64Array(1);
    this.#call("rank", matrix, rows, columns, this.#count(rows, columns), rows, rank);
    return Number(rank[0]);
  }

  /** The determinant of a matrix of size rows of size elements. */
  determinant(matrix, size) {
    const determinant = this.#field.zeros(1);
    this.#call("determinant", matrix, size, this.#count(size, size), determinant);
    return this.#field.elements(determinant)[0];
  }

  /** The inverse of a matrix of size rows of size elements. */
  inverse(matrix, size) {
    const inverse = this.#entries(size, size);
    this.#call("inverse", matrix, size, inverse, 2 * this.#count(size, size), size);
    return inverse;
  }

  /** A solution x of matrix * x = right, of rows equations in columns unknowns; an unknown that the others leave open
   * is 0. */
  solve(matrix, rows, columns, right) {
    const solution = this.#field.zeros(columns);
    this.#call("solve", matrix, rows, columns, right, solution, this.#count(rows, Number(columns) + 1), rows);
    return solution;
  }

  #call(name, ...values) {
    this.#library.call(`${this.#field.name}_matrix_${name}`, ...values);
  }

  #count(rows, columns) {
    return Number(wholeNumber(rows, 32, "the number of rows")) * Number(
      wholeNumber(columns, 32, "the number of columns")
    );
  }

  #entries(rows, columns) {
    return this.#field.zeros(this.#count(rows, columns));
  }

  #places(rows) {
    return new BigUint64Array(Number(wholeNumber(rows, 32, "the number of rows")));
  }
}

/** Every field by the name of its type. */
export function fieldsOf(library) {
  return Object.fromEntries(FIELDS.map((row) => [row.type, new Field(library, row)]));
}
