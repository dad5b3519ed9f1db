'use strict';

// What the store saw of the turns, as `ebpf run --events` tells it: an event a line, each with CPU, job and pc. The
// program makes the turns and then rounds, and doesn't say which event is which turn's; so the jobs are given no more
// steps than the turns made, and each event is laid beside the turn of its CPU, job and pc. It is asked for once a
// state is drawn, in an engine of its own, and where it lasts, nothing is marked. What a flush brought to memory, the
// debugger has answered already.

const MOST_TOLD = 5000; // turns whose events are asked for
const PATIENCE = 2000; // milliseconds
const PAUSE = 100;
const DEFAULT_BUDGET = 1000000;

const KINDS = {
    lookup: { mark: '?', text: 'lookup' },
    update: { mark: '+', text: 'update' },
    delete: { mark: '×', text: 'deletion' },
    load: { mark: '↓', text: 'load' },
    store: { mark: '↑', text: 'store' },
    atomic: { mark: '↕', text: 'atomic operation' },
};

// `cpu C job J pc P KIND ..`; an atomic operation has its own name for KIND. Of a lookup the value's address, where it
// found one, and of an update or a deletion that was done, what that makes of the value that was there.
function read_event(line) {
    const found = /^cpu (\d+) job (\d+) pc (\d+) ((\w+)(?: (\w+) (\w+))?.*)$/.exec(line);
    if (!found) return null;
    const [cpu, job, pc] = found.slice(1, 4).map(Number);
    const [text, word, map, key] = found.slice(4);
    const hex = word === 'lookup' && /= (0x[0-9a-f]+)$/.exec(text);
    const address = hex ? String(BigInt(hex[1])) : undefined;
    const gone = text.endsWith('= done') ? { update: 'replaced', delete: 'deleted' }[word] : undefined;
    return { cpu, job, pc, text, word, map, key, address, gone };
}

const kind_of = ({ word }) => KINDS[word] ?? KINDS.atomic;
const is_edge = ({ word }) => word === 'begin' || word === 'end';
const place_name = (cpu, job, pc) => `${cpu} ${job} ${pc}`;

// The file, in which each job has as many steps as it made in these turns, and one more where it made any: its end is
// an event too, and may free elements, so it isn't to come before the turns are made.
function with_budgets({ text, jobs }, known) {
    const steps = jobs.map(() => 0);
    for (const turn of known) if (turn.job !== undefined && !turn.is_none) steps[turn.job]++;
    const lines = text.split('\n');
    jobs.forEach(({ row }, job) => {
        const words = words_of(lines[row]);
        const at = words.indexOf('budget', 3);
        const own = at < 0 ? DEFAULT_BUDGET : Number(words[at + 1]);
        const budget = Math.min(own, steps[job] && steps[job] + 1);
        const rest = words.slice(3).filter((_, nth) => at < 0 || (nth !== at - 3 && nth !== at - 2));
        lines[row] = [...words.slice(0, 3), 'budget', budget, ...rest].join(' ');
    });
    return lines.join('\n');
}

// The events of the turns alone: rounds come behind them, from the first CPU with work on. That CPU's job makes one
// more step, if it has begun, and ends; or it begins.
function events_of_turns(events, places) {
    const next = places.find((place) => !place.is_idle);
    if (!next) return events;
    const word = next.is_waiting ? 'begin' : 'end';
    const ends = events.findIndex((it) => it.cpu === next.cpu && it.job === next.job && it.word === word);
    const own = events.slice(0, Math.max(ends, 0));
    const last = own.at(-1);
    const is_behind = last && last.cpu === next.cpu && last.job === next.job && last.pc === next.pc && !is_edge(last);
    return is_behind ? own.slice(0, -1) : own;
}

// Lays events beside turns. An instruction that the store saw in some of its turns and not in others is left out: which
// turns those were, the events don't say.
function lay_events(events, turns, known) {
    const beside = [];
    const counts = new Map();
    let next = 0;
    known.forEach(({ job, pc, is_none }, turn) => {
        if (is_none || is_flush(turns[turn])) return;
        const name = place_name(turns[turn], job, pc);
        const count = counts.get(name) ?? { turns: 0, seen: 0 };
        counts.set(name, count);
        count.turns++;
        const event = events[next];
        if (!event || place_name(event.cpu, event.job, event.pc) !== name) return;
        next++;
        count.seen++;
        beside[turn] = event;
    });
    if (next < events.length) return [];
    return beside.map((event) => {
        const { turns: all, seen } = counts.get(place_name(event.cpu, event.job, event.pc));
        return seen === all ? event : undefined;
    });
}

const telling = { engine: null, number: 0, call: 0, is_on: false, timer: null };

// The events beside the shown turns of a state, a list with holes.
async function tell_events({ file, turns, shown, known, views }) {
    const own = known.slice(0, shown);
    const words = ['run', ...(file.is_x86 ? ['--x86'] : []), '--events', '--by', schedule_of(turns.slice(0, shown))];
    const { stdout } = await telling.engine.call(words, with_budgets(file, own));
    const events = text_of(stdout).split('\n').map(read_event).filter((it) => it);
    const those = events_of_turns(events, views.after.places).filter((it) => !is_edge(it));
    return lay_events(those, turns, own);
}

// Whether the events of all shown turns are told, or won't be.
function are_told({ file, shown, known }) {
    return file.is_slow || shown > MOST_TOLD || known.slice(0, shown).every((turn) => turn.event !== undefined);
}

// The values that the runs hold, each with its key; of a value that no key leads to any more, the events tell the one
// that did, and what has come of it: a value is held since a lookup of the job in hand found it.
function held_values({ file, turns, shown, known, views }) {
    const looked = list_of(file.cpus, () => new Map());
    known.slice(0, shown).forEach(({ event, ended }, turn) => {
        const cpu = turns[turn];
        const { map, key, address, gone } = event ?? {};
        if (address) looked[cpu].set(address, { map, key, gone: '' });
        if (gone) {
            const those = looked.flatMap((all) => [...all.values()]).filter((it) => it.map === map && it.key === key && !it.gone);
            for (const one of those) one.gone = gone;
        }
        if (ended) looked[cpu].clear();
    });
    return views.after.held.flatMap((values, cpu) => values.map((value) => ({ cpu, gone: '', ...value, ...looked[cpu].get(value.address) })));
}

// Learns the events of the shown turns that weren't told yet, once no further click has come for a while.
function learn_events(state, show) {
    clearTimeout(telling.timer);
    const mine = ++telling.number;
    // As it is now: another file may be opened before the events are told.
    const asked = { ...state, known: state.known.slice(0, state.shown) };
    const { file, known: own } = asked;
    if (are_told(state)) return;
    telling.timer = setTimeout(async () => {
        if (telling.is_on) telling.engine.stop();
        telling.engine ??= new Engine(engine);
        Object.assign(telling, { is_on: true, call: mine });
        const slow = setTimeout(() => {
            file.is_slow = true;
            telling.engine.stop();
        }, PATIENCE);
        try {
            const beside = await tell_events(asked);
            if (mine !== telling.number) return;
            own.forEach((turn, nth) => (turn.event = beside[nth] ?? null));
        } catch (error) {
            if (error.name !== 'Stopped') throw error;
        } finally {
            clearTimeout(slow);
            if (mine === telling.call) telling.is_on = false;
        }
        if (mine === telling.number && state.file === file && state.views) show();
    }, PAUSE);
}
