'use strict';

// What the page reads of a run file by itself, for display alone and only once the program has taken it:
// which lines are which program's, and whose program a job runs. All else the debugger tells.

const words_of = (line) => line.replace(/;.*/, '').split(/[ \t\r]+/).filter((word) => word);

// What stands before the line `---`: behind it a file has commands of the debugger, which the page makes.
const before_commands = (text) => text.split(/^[ \t\r]*---[ \t\r]*(?:;.*)?$/m)[0];

// The programs of a file, with the lines that are theirs, and of each job its line and its program.
function read_file(text) {
    const [programs, ran] = [new Map(), []];
    const lines = text.split('\n');
    for (let number = 0; number < lines.length; number++) {
        const [first, name, third, fourth] = words_of(lines[number]);
        if (first === 'job') ran.push({ row: number, program: third });
        if (first !== 'prog') continue;
        if (third === 'hex') {
            programs.set(name, { words: fourth });
            continue;
        }
        const begins = number + 1;
        while (words_of(lines[++number])[0] !== 'end');
        programs.set(name, { begins, text: with_end(lines.slice(begins, number).join('\n')) });
    }
    return { text, programs, ran };
}

// The text of a program with a number in place of each name that it loads by: of a map or an array, or an address. `asm`
// has no file to look names up in, and pcs don't depend on the number.
function without_names(text) {
    const line = (whole) => {
        const [, code, note] = /^([^;]*)(.*)$/s.exec(whole);
        return code.replace(/=\s*map\s+[A-Za-z_]\w*/, '= map 0').replace(/=\s*&.*$/s, '= 0 ll') + note;
    };
    return text.split('\n').map(line).join('\n');
}

// The lines of a program, each with its pc where it has an instruction and the line of the file that it
// stands on. `asm --listing` and `disasm --pc` write pc and words after the line; a comment may look the
// same, and is told by its pc.
async function list_program(engine, { text, words, begins }) {
    const command = text === undefined ? ['disasm', '--pc'] : ['asm', '--listing'];
    const { stdout } = await engine.call(command, text === undefined ? words : without_names(text));
    const listed = text_of(stdout).replace(/\n$/, '').split('\n');
    const own = text?.split('\n');
    // The blanks that all lines begin with are left out.
    const blanks = Math.min(...listed.filter((line) => line.trim()).map((line) => /^ */.exec(line)[0].length));
    let next = 0;
    return listed.map((whole, number) => {
        const found = /^(.*?)[ \t]*; (\d+): ((?:[0-9a-f]{16}){1,2})$/s.exec(whole);
        const is_listed = found && Number(found[2]) === next;
        if (is_listed) next += found[3].length / 16;
        const line = own?.[number] ?? (is_listed ? found[1] : whole);
        const [, code, note] = /^([^;]*)(;.*)?$/s.exec(line.slice(Math.min(blanks, /^ */.exec(line)[0].length)));
        const row = begins === undefined ? undefined : begins + number;
        return { pc: is_listed ? Number(found[2]) : null, code: code.trimEnd(), note: note ?? '', row };
    });
}

// The bytes from one value of a map to the next: its size, rounded up to a multiple of 8.
const pace_of = ({ value }) => Math.ceil(value / 8) * 8;

// What an address among those of arrays is, counted from the first of them: a variable, or a value by its index.
function array_text(place, { arrays, variables }) {
    const { name, value, most, is_per_cpu } = arrays[Math.floor(place / 0x1000_0000)];
    const offset = place % 0x1000_0000;
    const with_rest = (text, rest) => `${text}${rest ? ` +${rest}` : ''}`;
    const variable = variables.find((it) => it.array === name && it.at <= offset && offset < it.at + it.size);
    if (variable) return with_rest(variable.name, offset - variable.at);
    const pace = pace_of({ value });
    const block = Math.ceil((most * pace) / 64) * 64;
    const own = is_per_cpu ? offset % block : offset;
    const whose = is_per_cpu ? ` of CPU ${Math.floor(offset / block)}` : '';
    return with_rest(`${name}[${Math.floor(own / pace)}]${whose}`, own % pace);
}

// What an address is, by docs/reference/machine.md: null where it is none of a map, an array, the context, a frame or a
// value. Whether a run may use it, the program alone knows.
function address_text(number, file) {
    const { maps, arrays } = file;
    const address = Number(number);
    const within = (from, length) => address >= from && address < from + length;
    if (within(0x1_0000_0000, maps.length)) return `map ${maps[address - 0x1_0000_0000].name}`;
    if (within(0x1_0000_0010, arrays.length)) return `array ${arrays[address - 0x1_0000_0010].name}`;
    if (within(0x2_0000_0000, 4097)) return `context +${address - 0x2_0000_0000}`;
    if (within(0x3_0000_0000, 8 * 0x1000)) {
        const frame = Math.floor((address - 0x3_0000_0000) / 0x1000);
        const below = 0x3_0000_0200 + frame * 0x1000 - address;
        return below < 0 ? null : `frame ${frame} ${below ? -below : 'top'}`;
    }
    if (within(0x11_0000_0000, arrays.length * 0x1000_0000)) return array_text(address - 0x11_0000_0000, file);
    if (!within(0x10_0000_0000, maps.length * 0x1000_0000)) return null;
    const map = Math.floor((address - 0x10_0000_0000) / 0x1000_0000);
    const offset = (address - 0x10_0000_0000) % 0x1000_0000;
    const pace = pace_of(maps[map]);
    const rest = offset % pace;
    return `${maps[map].name}[${Math.floor(offset / pace)}]${rest ? ` +${rest}` : ''}`;
}

// What `debug --explain` says of a refused file: the line that it prints, and on standard error the reason,
// the line with a caret below it, and hints.
function read_refusal(printed, explained) {
    const found = /^refused (?:line (\d+) )?(\S+)/.exec(printed) ?? [];
    const [head = printed, ...rows] = explained.split('\n').filter((row) => row.trim());
    const reason = head.replace(/^refused [^:]*: /, '');
    const lead = `  line ${found[1]}: `;
    const caret = rows.find((row) => /^ *\^+$/.test(row));
    const hints = rows.filter((row) => row !== caret && !row.startsWith(lead) && !row.startsWith('  see: '));
    return {
        line: found[1] === undefined ? null : Number(found[1]),
        code: found[2],
        reason,
        caret: caret?.slice(lead.length),
        hints: hints.map((row) => row.trim()),
    };
}

// What a code means, as the first line of its page says.
async function meaning_of(engine, code) {
    const { stdout } = await engine.call(['explain', code], '');
    return text_of(stdout).split('\n')[0];
}

// Takes a text as the program does: its file, with listings and first places, or its refusal.
async function take_file(engine, machine, text) {
    const own = before_commands(text);
    const said = await engine.call(['debug', '--explain'], script_of(own, []));
    if (said.status === 1) {
        const refusal = read_refusal(text_of(said.stdout).trim(), text_of(said.stderr));
        const page = await engine.call(['explain', refusal.code], '');
        return { refusal: { ...refusal, page: text_of(page.stdout).trim() } };
    }
    const file = read_file(own);
    file.listings = new Map();
    for (const [name, program] of file.programs) file.listings.set(name, await list_program(engine, program));
    await machine.learn(file);
    file.jobs.forEach((job, number) => Object.assign(job, file.ran[number]));
    return { file };
}
