// The demonstration in WebAssembly: sets up a heap of 64 words, makes nine calls and prints the heap chunk by chunk, the nine lines of
// crates/demo/stdout. `bash tools/archive wasm && node wasm/demo.mjs`
import { readFile } from 'node:fs/promises';
import { ASK, Heap, RECORD } from './kruzhvela.mjs';

const module = await readFile(new URL('../target/wasm/kruzhvela.wasm', import.meta.url));
const heap = await Heap.load(module, 64);

function expect(answer, expected) {
    for (const [name, value] of Object.entries(expected))
        if (answer[name] !== value) throw new Error(`${name} is ${answer[name]} and should be ${value}`);
}

expect(heap.setup([24, 32, 40, 128], 64, true), { refusal: 0 });
expect(heap.allocate(16), { refusal: 0, offset: 16 });
expect(heap.allocate(17), { refusal: 0, offset: 80 });
expect(heap.allocate(40), { refusal: 0, offset: 112 });
expect(heap.allocate(64), { refusal: 0, offset: 160 });
expect(heap.allocate(16), { refusal: 7, offset: 0 }); // no room
expect(heap.free(80), { refusal: 0 });
expect(heap.free(112), { refusal: 0 });
expect(heap.free(112), { refusal: 6 }); // a double free
expect(heap.allocate(16), { refusal: 0, offset: 80 });

function kind(chunk) {
    if (chunk === 0) return 'start';
    if (heap.askChunk(ASK.next, chunk).none) return 'end';
    if (heap.askChunk(ASK.type, chunk).value === 1) return 'inuse';
    if (chunk === heap.record[RECORD.donor]) return 'donor';
    if (chunk === heap.record[RECORD.top]) return 'top';
    return `free ${heap.askChunk(ASK.bin, chunk).value}`;
}

console.log(heap.record[RECORD.bytes], heap.record[RECORD.bins], heap.record[RECORD.used]);
for (let chunk = 0, next = { none: false }; !next.none; chunk = next.value) {
    console.log(chunk, heap.askChunk(ASK.size, chunk).value, kind(chunk));
    next = heap.askChunk(ASK.next, chunk);
}
