// Hashes of authentication tags, erasure codes, and lines of text.
import { describe, lengthOf, typeOfArray, wholeNumber } from "./memory.mjs";
import { FIELD_WORDS, STATE_WORDS } from "./tables.mjs";

const HASH_BYTES = 16;
const ANSWER_BYTES = 48;

// Flags as the library takes them, of which `what` says what they tell.
function flagsOf(list, what) {
  if (list === null || typeof list !== "object" || typeof list[Symbol.iterator] !== "function") {
    throw new TypeError(`${what} is ${describe(list)}, and not a list of flags`);
  }
  return Uint8Array.from(list, (it) => (it ? 1 : 0));
}

// The flags of shards: one that is there is 1.
function flags(present) {
  return flagsOf(present, "present");
}

/** Hashes of messages under a key of 16 bytes, as GCM and GCM-SIV use them. Nothing is claimed on timing. */
export function tagsOf(library) {
  const hash = (name, ...given) => {
    const result = new Uint8Array(HASH_BYTES);
    library.call(`tag_${name}`, ...given, result);
    return result;
  };
  // A hash of a message in pieces: a copy goes on by itself, and it tells the key.
  const inPieces = (name) =>
    class Pieces {
      #state = new BigUint64Array(STATE_WORDS);

      constructor(key) {
        library.call(`tag_${name}_init`, this.#state, key);
      }

      /** Adds bytes to the message, of any number: no zeros come between them and the next ones. */
      update(message) {
        library.call(`tag_${name}_update`, this.#state, message);
        return this;
      }

      /** Adds as many zeros as make the message whole blocks of 16 bytes, which may be none. */
      pad() {
        library.call(`tag_${name}_pad`, this.#state);
        return this;
      }

      /** The hash of the message, zeros added to whole blocks. The message is then empty, under the same key. */
      digest() {
        const result = new Uint8Array(HASH_BYTES);
        library.call(`tag_${name}_final`, this.#state, result);
        return result;
      }
    };
  return Object.freeze({
    /** GHASH of the message (NIST SP 800-38D), zeros added to whole blocks. */
    ghash: (key, message) => hash("ghash", key, message),
    /** POLYVAL of the message (RFC 8452), zeros added to whole blocks. */
    polyval: (key, message) => hash("polyval", key, message),
    /** The hash of GCM over associated data and ciphertext, with the block of their lengths. */
    gcmGhash: (key, associated, ciphertext) => hash("gcm_ghash", key, associated, ciphertext),
    /** Whether two tags have the same bytes. */
    equal(left, right) {
      const result = new Uint8Array(1);
      library.call("tags_are_equal", left, right, result);
      return result[0] === 1;
    },
    Ghash: inPieces("ghash"),
    Polyval: inPieces("polyval"),
  });
}

/** Reed-Solomon codes over bytes: shards stand one after the other in one array and have one size, those of data
 * first. */
export function reedSolomonOf(library) {
  return Object.freeze({
    /** Writes the shards of parity, and returns all shards. */
    encode(data, parity, shards) {
      library.call("rs_encode", data, parity, shards);
      return shards;
    },
    /** Whether the shards of parity are those of the data. */
    verify(data, parity, shards) {
      const whole = new Uint8Array(1);
      library.call("rs_verify", data, parity, shards, whole);
      return whole[0] === 1;
    },
    /** Writes the missing shards, and returns all shards: shard i is missing where present[i] is false or 0. With
     * `dataOnly` only those of data are written. */
    reconstruct(data, parity, shards, present, { dataOnly = false } = {}) {
      library.call(dataOnly ? "rs_reconstruct_data" : "rs_reconstruct", data, parity, shards, flags(present));
      return shards;
    },
  });
}

/** Erasure codes by transforms, of up to 65,536 shards of words of 16 bits: those of data and those of parity stand
 * in two arrays. */
export function erasureOf(library) {
  const space = (data, parity) => {
    const length = new BigUint64Array(1);
    library.call("erasure_space", data, parity, length);
    return Number(length[0]);
  };
  return Object.freeze({
    /** The shards of parity of shards of data. */
    encode(data, parity, shards) {
      const needed = space(data, parity);
      if (typeOfArray(shards) !== "Uint16Array") {
        throw new TypeError(`shards is ${describe(shards)}, and not a Uint16Array`);
      }
      const size = Math.floor(lengthOf(shards) / Number(data));
      const result = new Uint16Array(Number(wholeNumber(parity, 32, "parity")) * size);
      library.call("erasure_encode", data, parity, shards, result, needed);
      return result;
    },
    /** Whether the shards of parity are those of the data. */
    verify(data, parity, shards, parityShards) {
      const whole = new Uint8Array(1);
      library.call("erasure_verify", data, parity, shards, parityShards, space(data, parity), whole);
      return whole[0] === 1;
    },
    /** Writes the missing shards: shard i, of the data and then of the parity, is missing where present[i] is false
     * or 0. */
    reconstruct(data, parity, shards, parityShards, present) {
      library.call("erasure_reconstruct", data, parity, shards, parityShards, flags(present), space(data, parity));
      return { shards, parityShards };
    },
  });
}

// What a call writes of a word that is near to no word of a code.
const NOT_CORRECTED = 65535;

// A code by the calls that begin with a name and the numbers that say which code it is: words of so many symbols stand
// one after the other in one array, each with its data first. Behind these a call that encodes takes `space`, and one
// that corrects `room`.
function codeOf(library, prefix, numbers, symbols, data, { space = [], room = [] } = {}) {
  const countOf = (words) => Math.floor(lengthOf(words) / symbols);
  return Object.freeze({
    symbols,
    data,
    /** Writes the symbols behind the data of each word, and returns the words. */
    encode(words) {
      library.call(`${prefix}_encode`, ...numbers, words, ...space);
      return words;
    },
    /** Whether each word is one of the code. */
    areWords(words) {
      const answers = new Uint8Array(countOf(words));
      library.call(`${prefix}_are_words`, ...numbers, words, answers);
      return Array.from(answers, (it) => it === 1);
    },
    /** Corrects each word where it is near enough to one of the code: where it differs at t places beside e erased
     * ones, and 2 t + e is at most the number of checks. It tells how many symbols of each changed, and -1 where it is
     * near to none; that one stays. `erasures` has a flag for each symbol. */
    correct(words, erasures = []) {
      const changed = new Uint16Array(countOf(words));
      library.call(`${prefix}_correct`, ...numbers, words, flagsOf(erasures, "erasures"), changed, ...room);
      return Array.from(changed, (it) => (it === NOT_CORRECTED ? -1 : it));
    },
  });
}

/** Codes that correct errors. Where no code has the numbers, these throw. */
export function correctingOf(library) {
  const whole = (value, what) => Number(wholeNumber(value, 32, what));
  return Object.freeze({
    /** A Reed-Solomon code over bytes, by the modulus of the field: words are a Uint8Array. Its roots are the powers
     * rootStep * firstRoot, rootStep * (firstRoot + 1), .. of the field's generator. */
    overBytes({ modulus = 0x11d, symbols, data, firstRoot = 0, rootStep = 1 }) {
      const [n, k] = [whole(symbols, "symbols"), whole(data, "data")];
      const code = codeOf(library, "code", [modulus, n, k, firstRoot, rootStep], n, k);
      code.encode(new Uint8Array(0));
      return code;
    },
    /** The same over the field of 2^degree elements modulo x^degree + tail, up to 2^16 of them: words are a
     * Uint16Array. Its roots are the powers firstRoot, firstRoot + 1, .. of the element `root`. */
    overField({ degree, tail, symbols, data, firstRoot = 0, root = 2 }) {
      const [n, k, field] = [whole(symbols, "symbols"), whole(data, "data"), new BigUint64Array(FIELD_WORDS)];
      library.call("field_init", field, degree, tail);
      const named = field.reduceRight((number, word) => (number << 64n) | word, 0n);
      const checks = Math.max(n - k, 0);
      const code = codeOf(library, "field_code", [named, n, k, firstRoot, root], n, k, {
        space: [checks + 1],
        room: [2 * n + 5 * checks + 3, 2 * n, n],
      });
      code.areWords(new Uint16Array(0));
      return code;
    },
    /** A binary BCH code that corrects so many errors: words are a Uint8Array of bits. Its roots are powers of
     * generator^rootStep; a whole word has 255 bits for the step 1, and 15 for 17. */
    binary({ modulus = 0x11d, bits, errors, rootStep = 1 }) {
      const [n, data] = [whole(bits, "bits"), new BigUint64Array(1)];
      library.call("bch_data", modulus, n, errors, rootStep, data);
      return codeOf(library, "bch", [modulus, n, errors, rootStep], n, Number(data[0]));
    },
  });
}

/** What the program binfield answers to a line, as "41" to "t8 mul 10 10". */
export function answerOf(library) {
  const [encoder, decoder] = [new TextEncoder(), new TextDecoder()];
  return (line) => {
    if (typeof line !== "string" && typeOfArray(line) !== "Uint8Array") {
      throw new TypeError(`a line is ${describe(line)}, and not a text or a Uint8Array`);
    }
    const [answer, written] = [new Uint8Array(ANSWER_BYTES), new BigUint64Array(1)];
    library.call("answer", typeof line === "string" ? encoder.encode(line) : line, answer, written);
    return decoder.decode(answer.subarray(0, Number(written[0])));
  };
}
