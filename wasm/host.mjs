// Runs a C program that was linked for WebAssembly: `node wasm/host.mjs PROGRAM`. It is what bare/host.h asks for.
import { openSync, readFileSync, readSync, writeSync } from 'node:fs';

let memory;
const bytes = (at, n) => new Uint8Array(memory.buffer, at, n);

function host_open(name) {
    const end = new Uint8Array(memory.buffer).indexOf(0, name);
    try {
        return openSync(new TextDecoder().decode(bytes(name, end - name)), 'r');
    } catch {
        return -1;
    }
}
const host_read = (file, to, n) => readSync(file, bytes(to, n));
const host_write = (text, n) => { writeSync(1, bytes(text, n)); };
const host_exit = (status) => process.exit(status);

const module = new WebAssembly.Module(readFileSync(process.argv[2]));
const { exports } = new WebAssembly.Instance(module, { env: { host_open, host_read, host_write, host_exit } });
memory = exports.memory;
process.exit(exports.main());
