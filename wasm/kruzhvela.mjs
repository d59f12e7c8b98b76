// Kruzhvela in WebAssembly: one heap in the module's memory, and the ten calls. `bash tools/archive wasm` links the module,
// target/wasm/kruzhvela.wasm; nothing else is needed. docs/MANUAL.md, section 5, has the calls; include/kruzhvela.h the numbers.

const WORD = 4, PAGE = 65536, RECORD_WORDS = 103, ANSWER_WORDS = 5;

// One more than a heap may have: a longer table is cut to this, and is refused all the same.
const MOST_SIZES = 33;

// Where the record's words stand.
export const RECORD = { bytes: 0, bins: 1, donor: 2, top: 3, merge: 4, used: 5, sizes: 6, heads: 38, tails: 70, patrol: 102 };

// The numbers of the questions about a chunk, and of those about a bin.
export const ASK = { bin: 1, block: 2, chunk: 3, next: 4, nextInBin: 5, previous: 6, previousInBin: 7, size: 8, type: 9 };
export const ASK_BIN = { count: 1, first: 2, last: 3 };

// A number that the functions can take as it is; they would take any other modulo 2^32.
function word(n) {
    if (!Number.isInteger(n) || n < 0 || n > 0xFFFFFFFF) throw new RangeError(`${n} is no number of 32 bits`);
    return n;
}

export class Heap {
    #calls; #memory; #answer; #record; #table; #region; #words;

    // bytes: the module's, read from a file or fetched. words: of the region. Each heap has a memory of its own.
    static async load(bytes, words) {
        const { instance } = await WebAssembly.instantiate(bytes);
        return new Heap(instance.exports, words);
    }

    // Answer, record, table and region stand one after the other above what the module uses, its stack included; each begins at a
    // multiple of 8.
    constructor(calls, words) {
        const above = (at, count) => Math.ceil((at + count * WORD) / 8) * 8;
        this.#calls = calls;
        this.#memory = calls.memory;
        this.#words = word(words);
        this.#answer = above(calls.__heap_base.value, 0);
        this.#record = above(this.#answer, ANSWER_WORDS);
        this.#table = above(this.#record, RECORD_WORDS);
        this.#region = above(this.#table, MOST_SIZES);
        const missing = above(this.#region, words) - this.#memory.buffer.byteLength;
        if (missing > 0) this.#memory.grow(Math.ceil(missing / PAGE));
    }

    // Words of the module's memory. A view holds until the memory grows, so none is kept.
    #view(at, count) { return new Uint32Array(this.#memory.buffer, at, count); }

    get region() { return this.#view(this.#region, this.#words); }
    get record() { return this.#view(this.#record, RECORD_WORDS); }

    // So many bytes of the region from an offset on: those of a block.
    bytes(offset, count) {
        if (word(offset) + word(count) > this.#words * WORD) throw new RangeError('this is not in the region');
        return new Uint8Array(this.#memory.buffer, this.#region + offset, count);
    }

    // A count of words has 64 bits, which is a BigInt in JavaScript.
    #call(name, ...rest) {
        this.#calls[name](this.#region, BigInt(this.#words), ...rest, this.#answer);
        return this.#view(this.#answer, ANSWER_WORDS);
    }
    #answered(name, ...rest) {
        const [refusal, offset, value, change, none] = this.#call(name, this.#record, ...rest.map(word));
        return { refusal, offset, value, change: change | 0, none: none === 1 };
    }

    setup(table, donor, merge) {
        const sizes = table.slice(0, MOST_SIZES).map(word);
        this.#view(this.#table, sizes.length).set(sizes);
        const [refusal] = this.#call('kz_setup', this.#table, BigInt(sizes.length), word(donor), merge ? 1 : 0, this.#record);
        return { refusal };
    }
    allocate(z) { return this.#answered('kz_allocate', z); }
    allocateCleared(count, size) { return this.#answered('kz_allocate_cleared', count, size); }
    free(block) { return this.#answered('kz_free', block); }
    reallocate(block, z) { return this.#answered('kz_reallocate', block, z); }
    setMerge(on) { return this.#answered('kz_set_merge', on ? 1 : 0); }
    check() {
        const [refusal, chunks, ordinary, used, free] = this.#call('kz_check', this.#record);
        return { refusal, chunks, ordinary, used, free };
    }
    askChunk(question, place) { return this.#answered('kz_ask_chunk', question, place); }
    askBin(question, bin) { return this.#answered('kz_ask_bin', question, bin); }
    patrol(chunks) { return this.#answered('kz_patrol', chunks); }
}
