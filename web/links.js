'use strict';

// A link is a state: `#1.` and the run file, the turns (a hex digit each) and how many of them are shown,
// as JSON, deflated, in base64 of the kind for addresses. Where CPUs have store buffers, `by` is in the place of the
// turns: a schedule, as the program writes it. A link is somebody else's text: how much comes out of it is bounded while
// it is inflated, its form is checked, and nothing of it is anything but text.

const MOST_TURNS = 50000;
const MOST_FILE = 1 << 20;
const MOST_JSON = 2 * MOST_FILE + 8 * MOST_TURNS; // a letter may be written by two, and a turn by seven
const MOST_LINK = 1 << 21;

async function through(stream, bytes, most) {
    const parts = [];
    let length = 0;
    for await (const part of new Blob([bytes]).stream().pipeThrough(stream)) {
        length += part.length;
        if (length > most) throw new Error('it is too long');
        parts.push(part);
    }
    return new Uint8Array(await new Blob(parts).arrayBuffer());
}

const SCHEDULE = /^(?:\d{1,2}!?\*\d{1,5}(?: |$))*$/;

// The turns that a link has; null where they are more than this page makes.
function turns_of_link({ turns, by }) {
    if (by !== undefined) return turns_of_schedule(by, MOST_TURNS);
    return turns.length > MOST_TURNS ? null : Array.from(turns, (digit) => parseInt(digit, 16));
}

// Whether a link has a file, and turns in the right form.
function is_link({ file, turns, by }) {
    const is_made_by = (text, form) => typeof text === 'string' && form.test(text);
    return typeof file === 'string' && (by === undefined ? is_made_by(turns, /^[0-9a-f]*$/) : is_made_by(by, SCHEDULE));
}

async function write_link({ text, turns, shown, is_x86 }) {
    const made = is_x86 ? { by: schedule_of(turns) } : { turns: turns.map((cpu) => cpu.toString(16)).join('') };
    const said = JSON.stringify({ file: text, ...made, shown });
    const bytes = await through(new CompressionStream('deflate-raw'), new TextEncoder().encode(said), Infinity);
    let binary = '';
    for (const byte of bytes) binary += String.fromCharCode(byte);
    return `#1.${btoa(binary).replaceAll('+', '-').replaceAll('/', '_').replace(/=+$/, '')}`;
}

// The state that a link stands for, null where there is none, or an error that says what is wrong.
async function read_link(hash) {
    if (!hash || hash === '#') return null;
    if (hash.length > MOST_LINK) throw new Error('it is too long');
    const found = /^#1\.([\w-]+)$/.exec(hash);
    if (!found) throw new Error('it is damaged');
    let said = null;
    try {
        const binary = atob(found[1].replaceAll('-', '+').replaceAll('_', '/'));
        const bytes = Uint8Array.from(binary, (letter) => letter.charCodeAt(0));
        const whole = await through(new DecompressionStream('deflate-raw'), bytes, MOST_JSON);
        said = JSON.parse(new TextDecoder('utf-8', { fatal: true }).decode(whole));
    } catch (error) {
        throw error.message === 'it is too long' ? error : new Error('it is damaged');
    }
    if (!is_link(said ?? {})) throw new Error('it is damaged');
    const { file, shown, by } = said;
    const turns = turns_of_link(said);
    if (file.length > MOST_FILE || !turns) throw new Error('it is too long');
    const is_number = Number.isInteger(shown) && shown >= 0;
    return { file, turns, shown: is_number ? shown : turns.length, is_x86: by !== undefined };
}
