// Makes each of the ten calls by kruzhvela.mjs, and holds its answers to the manual. `bash tools/archive wasm && node wasm/test.mjs`
import assert from 'node:assert/strict';
import { readFile } from 'node:fs/promises';
import { ASK, ASK_BIN, Heap, RECORD } from './kruzhvela.mjs';

const module = await readFile(new URL('../target/wasm/kruzhvela.wasm', import.meta.url));
const granted = (offset, change) => ({ refusal: 0, offset, value: 0, change, none: false });
const told = (value) => ({ refusal: 0, offset: 0, value, change: 0, none: false });
const refused = (refusal) => ({ refusal, offset: 0, value: 0, change: 0, none: false });
const none = { ...told(0), none: true };
const done = told(0);

// The heap has 1,024 bytes: start, top from 8 to 1016, end.
const heap = await Heap.load(module, 256);
assert.deepEqual(heap.setup([24, 64, 256], 0, false), { refusal: 0 });
const { bytes, bins, donor, top, merge, used, sizes: first, heads, tails, patrol } = RECORD;
const record = (...at) => at.map((word) => heap.record[word]);
assert.deepEqual(record(bytes, bins, donor, top, merge, used, first, first + 1, first + 2, first + 3, patrol), [1024, 3, 0, 8, 0, 0, 24, 64, 256, 0, 0]);
assert.deepEqual(heap.check(), { refusal: 0, chunks: 3, ordinary: 0, used: 0, free: 1008 });
assert.deepEqual(heap.allocate(16), granted(16, 24));
heap.bytes(16, 15).fill(7);
assert.deepEqual(heap.allocateCleared(4, 4), granted(40, 24));
assert.deepEqual([...heap.bytes(40, 16)], Array(16).fill(0));
assert.deepEqual(heap.allocateCleared(65536, 65536), refused(5)); // the exact product, not modulo 2^32
assert.deepEqual(heap.allocate(2000), refused(7));
assert.deepEqual(heap.reallocate(16, 100), granted(64, 88)); // it moves: 112 bytes in place of 24
assert.deepEqual([...heap.bytes(64, 15)], Array(15).fill(7));
assert.deepEqual(record(heads, tails, top, used), [8, 8, 168, 136]);
assert.deepEqual(heap.askBin(ASK_BIN.count, 0), told(1));
assert.deepEqual(heap.askBin(ASK_BIN.first, 0), told(8));
assert.deepEqual(heap.askBin(ASK_BIN.first, 1), none);
assert.deepEqual(heap.askBin(ASK_BIN.first, 3), refused(8));
assert.deepEqual(heap.askChunk(ASK.previous, 8), told(0)); // the start is a chunk
assert.deepEqual(heap.askChunk(ASK.previous, 0), none);
assert.deepEqual(heap.setMerge(true), done);
assert.deepEqual(record(merge), [1]);
assert.deepEqual(heap.free(40), granted(0, -24)); // and joins the chunk below
assert.deepEqual(heap.free(40), refused(6));
assert.deepEqual(heap.askChunk(ASK.size, 8), told(48));

// A forward link is damaged and mended.
heap.region[2] ^= 1;
assert.equal(heap.check().refusal, 4);
assert.deepEqual(heap.allocate(8), refused(4));
assert.deepEqual(heap.patrol(1), told(0));
assert.deepEqual(record(patrol), [8]);
assert.deepEqual(heap.patrol(100), told(1));
assert.deepEqual(heap.check(), { refusal: 0, chunks: 5, ordinary: 1, used: 112, free: 896 });

// The largest heap, full of the smallest blocks, every forward link broken: the patrol has stack enough, and mends them all.
const full = await Heap.load(module, 16384);
full.setup([24], 0, true);
while (full.allocate(1).refusal === 0);
const whole = full.check();
for (let chunk = 8; chunk < full.record[top]; chunk += 24) full.region[chunk / 4] ^= 0x80000000;
assert.equal(full.check().refusal, 4);
assert.equal(full.patrol(5000).refusal, 0);
assert.deepEqual(full.check(), whole);

// A table of 33 sizes, and regions that are too small and too large; and the largest.
const sizes = Array.from({ length: 40 }, (_, i) => 24 + 8 * i);
assert.deepEqual(heap.setup(sizes.slice(0, 33), 0, true), { refusal: 2 });
assert.deepEqual(heap.setup(sizes, 0, true), { refusal: 2 });
assert.deepEqual(heap.setup(sizes.slice(0, 32), 0, true), { refusal: 0 });
for (const wrong of [-1, 16.5, 2 ** 32, NaN, '16', undefined]) {
    assert.throws(() => heap.allocate(wrong), RangeError);
    assert.throws(() => heap.setup([24, wrong], 0, true), RangeError);
    assert.throws(() => heap.bytes(16, wrong), RangeError);
    assert.throws(() => heap.bytes(wrong, 16), RangeError);
}
assert.equal(heap.bytes(1000, 24).length, 24);
assert.throws(() => heap.bytes(1000, 25), RangeError);
for (const [words, refusal] of [[0, 1], [9, 1], [10, 0], [16384, 0], [16385, 1]])
    assert.deepEqual((await Heap.load(module, words)).setup([24], 0, true), { refusal });
console.log('the ten calls answer from JavaScript as the manual says');
