'use strict';

// Calls the program, a WebAssembly module of 64-bit memory. Each call is an instance of its own, in a
// worker, so that the page stays awake and a call can be ended; nothing is kept from call to call.
//
//     const engine = new Engine(ebpfModule);              // the module's bytes in base64
//     const { status, stdout, stderr } = await engine.call(['hex'], 'b700..');
//     engine.stop();                                      // whatever is under way is rejected
//
// A third argument may have files that a command names, as bytes. stdout and stderr are bytes. A call is answered
// whole or rejected: as `Stopped`, as `Trap` where the instance can't go on, or as what the browser throws where it
// lacks 64-bit memory. The module is compiled once: another engine, or this one after a stop, takes what was compiled.

// The worker's whole text is this function's own: a page that is opened from disk can load no worker.
function engineWorker() {
    const WHY = {
        1: 'the program aborted',
        2: 'a thread was to be joined, and there is none',
        3: 'it would wait for another thread, and there is none',
    };
    const [ENOENT, EISDIR] = [2, 21];
    const FIRST_FILE = 3; // behind standard input, output and error
    let compiled = null;

    class Exit extends Error {}
    class Trap extends Error {}

    function joined(parts) {
        const whole = new Uint8Array(parts.reduce((sum, part) => sum + part.length, 0));
        let end = 0;
        for (const part of parts) {
            whole.set(part, end);
            end += part.length;
        }
        return whole;
    }

    // What the instance may reach beside its memory. `bytes` looks at the memory anew each time: what it
    // gave before is gone once memory has grown.
    function imports(call, bytes) {
        return {
            read(file, address, room) {
                const from = file === 0 ? call : call.opened[file - FIRST_FILE];
                if (!from) return -1n;
                const part = from.stdin.subarray(from.taken, from.taken + Number(room));
                bytes(address, part.length).set(part);
                from.taken += part.length;
                return BigInt(part.length);
            },
            open(address, length) {
                const name = new TextDecoder().decode(bytes(address, length));
                if (name === '.') return -BigInt(EISDIR);
                if (!Object.hasOwn(call.files, name)) return -BigInt(ENOENT);
                return BigInt(FIRST_FILE + call.opened.push({ stdin: call.files[name], taken: 0 }) - 1);
            },
            write(file, address, length) {
                const parts = call.written[file];
                if (!parts) return -1n;
                parts.push(bytes(address, length).slice());
                return length;
            },
            argument(number, address, room) {
                const word = call.words[Number(number)];
                if (!word) return -1n;
                const part = word.subarray(0, Number(room));
                bytes(address, part.length).set(part);
                return word.length > part.length ? -2n : BigInt(word.length);
            },
            exit(status) {
                call.status = status;
                throw new Exit();
            },
            stop(why) {
                throw new Trap(WHY[why]);
            },
        };
    }

    function answer(words, stdin, files) {
        const began = performance.now();
        const coded = ['ebpf', ...words].map((it) => new TextEncoder().encode(it));
        const call = { words: coded, stdin, taken: 0, files, opened: [], written: { 1: [], 2: [] }, status: null };
        const memory = () => instance.exports.memory.buffer;
        const bytes = (address, length) => new Uint8Array(memory(), Number(address), Number(length));
        const instance = new WebAssembly.Instance(compiled, { page: imports(call, bytes) });
        const made = performance.now() - began;
        try {
            call.status = instance.exports.start();
        } catch (error) {
            if (!(error instanceof Exit)) throw error;
        }
        const [stdout, stderr] = [joined(call.written[1]), joined(call.written[2])];
        return { status: call.status, stdout, stderr, made, time: performance.now() - began };
    }

    function compile(base64) {
        const binary = atob(base64);
        const code = Uint8Array.from(binary, (letter) => letter.charCodeAt(0));
        compiled = new WebAssembly.Module(code);
    }

    onmessage = ({ data: { number, module, words, stdin, files } }) => {
        try {
            if (module) {
                if (typeof module === 'string') compile(module);
                else compiled = module;
                postMessage({ number, done: compiled });
                return;
            }
            const done = answer(words, stdin, files);
            postMessage({ number, done }, [done.stdout.buffer, done.stderr.buffer]);
        } catch (error) {
            postMessage({ number, failed: { name: error.constructor.name, message: error.message } });
        }
    };
}

function failure(name, message) {
    return Object.assign(new Error(message), { name });
}

class Engine {
    // Of the module's bytes in base64, or of another engine.
    constructor(source) {
        this.module = source instanceof Engine ? source.module : source;
        this.waiting = new Map();
        this.number = 0;
        this.start();
    }

    start() {
        const place = URL.createObjectURL(new Blob([`'use strict';(${engineWorker})();`], { type: 'text/javascript' }));
        this.worker = new Worker(place);
        URL.revokeObjectURL(place);
        this.worker.onmessage = ({ data: { number, done, failed } }) => {
            const { resolve, reject } = this.waiting.get(number);
            this.waiting.delete(number);
            if (failed) reject(failure(failed.name, failed.message));
            else resolve(done);
        };
        this.ready = this.send({ module: this.module }).then((compiled) => {
            this.module = compiled;
        });
        this.ready.catch(() => {});
    }

    send(message) {
        const number = this.number++;
        return new Promise((resolve, reject) => {
            this.waiting.set(number, { resolve, reject });
            this.worker.postMessage({ ...message, number });
        });
    }

    async call(words, stdin, files = {}) {
        await this.ready;
        return this.send({ words, stdin: typeof stdin === 'string' ? new TextEncoder().encode(stdin) : stdin, files });
    }

    stop() {
        this.worker.terminate();
        for (const { reject } of this.waiting.values()) reject(failure('Stopped', 'stopped'));
        this.waiting.clear();
        this.start();
    }
}
