'use strict';

// How the page learns what the machine is after some turns. It keeps no machine of its own: a state is
// what `ebpf debug` answers when it makes the turns from the beginning, and nothing else in the page
// asks for one. What is asked and how the answers are read stands here alone, so a command that tells
// more at once changes this file.
//
// Where CPUs have store buffers (`file.is_x86`, and then `ebpf debug --x86`), a turn in the list may be a flush, too: of
// CPU C it is the number C + FLUSH.

const MOST_CPUS = 16;
const MARK = 'mark 0'; // is answered by itself, and so ends an answer of any number of lines
const NO_CPU = 'refused G1';
const HALF_FRAME = 256; // bytes: the most that `mem` tells at once
const FLUSH = 128; // a flush of CPU C is the number C + FLUSH

const text_of = (bytes) => new TextDecoder().decode(bytes);
const with_end = (text) => (text.endsWith('\n') || !text ? text : `${text}\n`);
const script_of = (text, commands) => `${with_end(text)}---\n${commands.map((line) => `${line}\n`).join('')}`;

const list_of = (count, make) => Array.from({ length: count }, (_, number) => make(number));

const cpu_of = (turn) => turn % FLUSH;
const is_flush = (turn) => turn >= FLUSH;
const flush_of = (cpu) => cpu + FLUSH;
const words_of_debug = ({ is_x86 }) => (is_x86 ? ['debug', '--x86'] : ['debug']);

// `cpu C idle`, `cpu C job J waiting` or `cpu C job J pc P depth D`.
function read_place(line) {
    const found = /^cpu (\d+) (?:idle|job (\d+) (?:waiting|pc (\d+) depth (\d+)))$/.exec(line);
    if (!found) throw new Error(`the debugger answered ${line || 'less than it was asked'}`);
    const number = (word) => (word === undefined ? undefined : Number(word));
    const [job, pc, depth] = found.slice(2).map(number);
    const is_idle = job === undefined;
    return { cpu: Number(found[1]), job, pc, depth, is_idle, is_waiting: !is_idle && pc === undefined };
}

// `job J cpu C` and how it ended.
function read_end(line) {
    const [, job, , , ...how] = line.split(' ');
    const code = how[0] === 'fault' ? how[1] : null;
    return { line, job: Number(job), how: how.join(' '), code, is_good: how[0].startsWith('r0=') };
}

// `NAME[KEY] ADDRESS BYTES` of a value that a run holds; where no key leads to it any more, `at ADDRESS` stands in the
// key's place. Null of another answer.
function read_held(line) {
    const [, map, key, address, bytes] = /^(\w+)\[([0-9a-f]+|at \d+)\] (\d+) ([0-9a-f]+)$/.exec(line) ?? [];
    if (!bytes) return null;
    return key.startsWith('at ') ? { map, address, bytes } : { map, key, address, bytes };
}

// `store N at A V`: N bytes from the address A on, and their number.
function read_store(text) {
    const [, size, address, number] = /^store (\d+) at (0x[0-9a-f]+) (\d+)$/.exec(text) ?? [];
    if (!size) throw new Error(`the debugger answered ${text}`);
    return { text, size: Number(size), address: BigInt(address), number: BigInt(number) };
}

// `cpu C flush` and the store that reached memory; null of `cpu C nothing waits`.
function read_flush(line) {
    const [, store, nothing] = /^cpu \d+ (?:flush (store .+)|(nothing waits))$/.exec(line) ?? [];
    if (!store && !nothing) throw new Error(`the debugger answered ${line || 'less than it was asked'}`);
    return store ? read_store(store) : null;
}

// `cpu C waits` and a store, a line each, the oldest first; none of `cpu C nothing waits`.
function read_buffer(lines) {
    const stores = lines.filter((line) => !line.endsWith(' nothing waits'));
    return stores.map((line) => read_store(line.replace(/^cpu \d+ waits /, '')));
}

// Turns in run lengths, as the program writes and takes them: `0*2 1*1` is two turns of CPU 0 and one of CPU 1, and `0!*2`
// two flushes of CPU 0.
function schedule_of(turns) {
    const runs = [];
    for (const turn of turns) {
        const last = runs.at(-1);
        if (last?.turn === turn) last.count++;
        else runs.push({ turn, count: 1 });
    }
    return runs.map(({ turn, count }) => `${cpu_of(turn)}${is_flush(turn) ? '!' : ''}*${count}`).join(' ');
}

// The turns of a schedule, or null where they are more than these.
function turns_of_schedule(schedule, most) {
    const runs = schedule.split(' ').filter((word) => word).map((word) => {
        const [who, count] = word.split('*');
        return { turn: who.endsWith('!') ? flush_of(parseInt(who, 10)) : Number(who), count: Number(count) };
    });
    if (runs.reduce((sum, { count }) => sum + count, 0) > most) return null;
    return runs.flatMap(({ turn, count }) => Array(count).fill(turn));
}

// The commands that make turns: those that were told before at once, each of the others by itself.
function commands_of(turns, known) {
    const told = turns.slice(0, known);
    const command = (turn) => `${is_flush(turn) ? 'flush' : 'step'} ${cpu_of(turn)}`;
    return [...(told.length ? [`steps ${schedule_of(told)}`] : []), ...turns.slice(known).map(command)];
}

class Answers {
    constructor(text) {
        this.lines = text.split('\n');
        this.next = 0;
    }

    line() {
        return this.lines[this.next++] ?? '';
    }

    // What a turn came to: how the job ended, where one did, and where its CPU stands; of a flush, which store reached
    // memory.
    turn(turn) {
        const line = this.line();
        if (is_flush(turn)) return { ended: null, flushed: read_flush(line) };
        if (!line.startsWith('job ')) return { ended: null, place: read_place(line) };
        return { ended: read_end(line), place: read_place(this.line()) };
    }

    // What turns came to: of those that were told before, which were made at once, nothing is read again.
    turns(turns, known) {
        if (known.length) this.next += known.filter((turn) => turn.ended).length + 1;
        return [...known, ...turns.slice(known.length).map((turn) => this.turn(turn))];
    }

    registers() {
        const first = this.line();
        if (first.startsWith('cpu ')) return null;
        const lines = [first];
        while (lines.length < 11) lines.push(this.line());
        return lines.map((line) => BigInt(line.slice(line.indexOf('=') + 1)));
    }

    // The lines up to the mark.
    until_mark() {
        const lines = [];
        for (let line = this.line(); line !== MARK; line = this.line()) {
            if (!line) throw new Error('the debugger answered less than it was asked');
            lines.push(line);
        }
        return lines;
    }

    map() {
        return new Map(this.until_mark().map((line) => line.split('=')));
    }

    // The values of an array that have a byte other than zero, by index, and by CPU where each has its own: each line is
    // `array NAME I=DIGITS` or `array NAME I cpu C=DIGITS`.
    array() {
        return new Map(this.until_mark().map((line) => line.split(' ').slice(2).join(' ').split('=')));
    }

    // The numbers of the variables: each line is `var NAME=N`.
    variables() {
        return new Map(this.until_mark().map((line) => line.replace('var ', '').split('=')));
    }

    // The bytes of a frame, in hex; null where it isn't live.
    frame() {
        const halves = [this.line(), this.line()];
        return halves.every((half) => half.length === 2 * HALF_FRAME) ? halves.join('') : null;
    }

    view(file) {
        return {
            places: list_of(file.cpus, () => read_place(this.line())),
            registers: list_of(file.cpus, () => this.registers()),
            frames: list_of(file.cpus, () => list_of(file.frames, () => this.frame())),
            maps: new Map(file.maps.map(({ name }) => [name, this.map()])),
            arrays: new Map(file.arrays.map(({ name }) => [name, this.array()])),
            variables: file.variables.length ? this.variables() : new Map(),
            held: list_of(file.cpus, () => this.until_mark().map(read_held).filter((it) => it)),
            buffers: list_of(file.is_x86 ? file.cpus : 0, () => read_buffer(this.until_mark())),
        };
    }
}

const FRAMES = 0x3_0000_0000;
const frame_asks = (cpu, frame) =>
    [0, HALF_FRAME].map((half) => `mem ${cpu} 0x${(FRAMES + 0x1000 * frame + half).toString(16)} ${HALF_FRAME}`);

function questions(file) {
    return [
        ...list_of(file.cpus, (cpu) => `where ${cpu}`),
        ...list_of(file.cpus, (cpu) => `regs ${cpu}`),
        ...list_of(file.cpus, (cpu) => list_of(file.frames, (frame) => frame_asks(cpu, frame))).flat(2),
        ...[...file.maps, ...file.arrays].flatMap(({ name }) => [`map ${name}`, MARK]),
        ...(file.variables.length ? ['vars', MARK] : []),
        ...list_of(file.cpus, (cpu) => [`held ${cpu}`, MARK]).flat(),
        ...list_of(file.is_x86 ? file.cpus : 0, (cpu) => [`buffer ${cpu}`, MARK]).flat(),
    ];
}

// `map NAME key K value V max M spare S`, and ` grow` after it of a map that grows.
function read_map(line) {
    const [, name, , key, , value, , most, , spare] = line.split(' ');
    return { name, key: Number(key), value: Number(value), most: Number(most), spare: Number(spare) };
}

// `array NAME value V max M`, then ` percpu` where each CPU has values of its own, and ` frozen` where they can only be
// read.
function read_array(line) {
    const [, name, , value, , most, ...words] = line.split(' ');
    return { name, value: Number(value), most: Number(most), is_per_cpu: words.includes('percpu') };
}

// `var NAME ARRAY AT SIZE`
function read_variable(line) {
    const [, name, array, at, size] = line.split(' ');
    return { name, array, at: Number(at), size: Number(size) };
}

// What `maps` answers.
function read_shapes(lines) {
    const those = (word, read) => lines.filter((line) => line.startsWith(`${word} `)).map(read);
    return { maps: those('map', read_map), arrays: those('array', read_array), variables: those('var', read_variable) };
}

class Machine {
    constructor(engine) {
        this.engine = engine;
    }

    // Makes turns of a run file that the program takes. Gives the machine before and after turn `shown`, and what each turn
    // came to: those of `known` were told before and aren't read again.
    async make(file, turns, shown, known = []) {
        const asked_of = { ...file }; // more frames may be asked for meanwhile
        const asks = questions(asked_of);
        const before = Math.max(shown - 1, 0);
        // The turns before the last one that is shown, that one, and those behind it.
        const parts = [[0, before], [before, shown], [shown, turns.length]].map(([from, to]) => ({
            turns: turns.slice(from, to),
            known: known.slice(from, to),
        }));
        const commands = parts.map((part) => commands_of(part.turns, part.known.length));
        const asked = [...commands[0], ...asks, ...commands[1], ...(shown ? asks : []), ...commands[2]];
        const { stdout, time } = await this.engine.call(words_of_debug(file), script_of(file.text, asked));
        const answers = new Answers(text_of(stdout));
        const read = (part) => answers.turns(part.turns, part.known);
        const made = { turns: read(parts[0]), views: {}, asked, answers: answers.lines, time };
        made.views.before = answers.view(asked_of);
        made.turns.push(...read(parts[1]));
        made.views.after = shown ? answers.view(asked_of) : made.views.before;
        made.turns.push(...read(parts[2]));
        add_starts(file, turns, made.turns);
        const deepest = Math.max(...Object.values(made.views).flatMap(({ places }) => places.map(({ depth }) => depth ?? 0)));
        if (deepest <= asked_of.frames) return made;
        // So many frames are asked for as were ever live: here more.
        file.frames = deepest;
        return this.make(file, turns, shown, known);
    }

    async answers(file, asked) {
        const { stdout } = await this.engine.call(words_of_debug(file), script_of(file.text, asked));
        return new Answers(text_of(stdout));
    }

    // Learns what the program tells of a file that it takes: how many CPUs there are, the maps, the arrays, the variables,
    // whose jobs are, and the machine before any turn. With store buffers all of it is the same.
    async learn(file) {
        const told = await this.answers(file, [...list_of(MOST_CPUS, (cpu) => `where ${cpu}`), 'maps', MARK, 'jobs', MARK]);
        file.cpus = list_of(MOST_CPUS, () => told.line()).filter((line) => line !== NO_CPU).length;
        Object.assign(file, read_shapes(told.until_mark()));
        file.jobs = told.until_mark().map((line) => ({ cpu: Number(line.split(' ')[3]) }));
        file.frames = 1;
        file.first = (await this.answers(file, questions(file))).view(file);
    }

    // The turns with those behind them that CPU C makes alone until it stands at this pc, and whether it does; null
    // where they are more than the most.
    async make_until(file, turns, cpu, pc, most) {
        const own = commands_of(turns, turns.length);
        const told = await this.answers(file, [...own, MARK, `go ${cpu} until ${pc}`, MARK, 'schedule']);
        told.until_mark();
        const is_there = told.until_mark().at(-1) === `stop ${cpu} ${pc}`;
        const all = turns_of_schedule(told.line().replace(/^steps ?/, ''), most);
        return all && { turns: all, is_there };
    }
}

// Adds to each turn which pc of which job it executed, and whether its CPU had work: from where the CPU
// stood before. A job that is about to begin stands at pc 0. A flush leaves the CPU where it is, and is none where
// nothing waited.
function add_starts(file, turns, made) {
    const places = [...file.first.places];
    made.forEach((turn, at) => {
        const cpu = cpu_of(turns[at]);
        const stood = places[cpu];
        if (is_flush(turns[at])) {
            Object.assign(turn, { is_none: !turn.flushed, place: stood });
            return;
        }
        places[cpu] = turn.place;
        turn.is_none = stood.is_idle;
        turn.job = stood.job;
        turn.pc = stood.is_waiting ? 0 : stood.pc;
    });
}
