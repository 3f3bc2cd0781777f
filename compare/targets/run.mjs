// Runs the driver over the library in node: run.mjs LIBRARY DRIVER SEED CALLS. Both use the library's own memory, and the
// driver calls the library's exports directly.
import { readFileSync, writeSync } from 'node:fs';

class End {
    constructor(status) {
        this.status = status;
    }
}

const [library, driver, seed, calls] = process.argv.slice(2);
const { instance } = await WebAssembly.instantiate(readFileSync(library), {});
const { memory } = instance.exports;
memory.grow(64);
const host = {
    memory,
    host_put: (at, n) => writeSync(1, new Uint8Array(memory.buffer, at, n)),
    host_leave: (status) => {
        throw new End(status);
    },
};
const run = await WebAssembly.instantiate(readFileSync(driver), { env: { ...instance.exports, ...host } });
try {
    run.instance.exports.run(Number(seed), Number(calls));
} catch (end) {
    if (!(end instanceof End))
        throw end;
    process.exitCode = end.status;
}
