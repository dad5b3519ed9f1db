'use strict';

// Every schedule: the outcomes, deadlocks and races that `ebpf explore` finds of a run file, each with a schedule that
// leads there and that the timeline can show; where CPUs have store buffers, of turns and flushes.
// The search has an engine of its own, so that CPUs can be stepped meanwhile, and is made with greater and greater limits,
// so that what is found is seen before its end.

const LIMITS = [1000, 10000, 100000, 1000000]; // of states
const MOST_FOUND = 200; // that are listed

const DEADLOCK = 'a deadlock: no order of turns leads from here to an end';
const DEADLOCK_X86 = 'a deadlock: no order of turns and flushes leads from here to an end';
const BY_TURNS = 'A schedule that leads there: N turns of CPU C are C*N';
const BY_FLUSHES = '`ebpf run --x86 --by` leads there: N turns of CPU C are C*N, and N flushes of its buffer C!*N';

// What `explore` prints: a line `by` before the lines of each outcome; behind them, of a patient search, a line a
// state from which no order of turns leads to an end, and whether budgets can be used up; or, with `--races`, a line a
// race, or one where there is none on x86 either; and a last line.
const FOUND = [
    ['outcome', /^by(?: (?<by>.*))?$/],
    ['deadlock', /^hung by(?: (?<by>.*))?$/],
    ['race', /^race cpu (?<cpu>\d+) prog (?<prog>\d+) pc (?<pc>\d+) cpu (?<other>\d+) prog (?<other_prog>\d+) pc (?<other_pc>\d+) (?:map|array|var) (?<what>.+?) by(?: (?<by>.*))?$/],
];
const LAST = /^(?<all>all|not all): (?:\d+ outcomes, (?<states>\d+) states|\d+ races)$/;

const SAID_OF = {
    outcome: () => [],
    deadlock: ({ is_x86 }) => [is_x86 ? DEADLOCK_X86 : DEADLOCK],
    race: ({ what, ...parts }) => [`${stands_in(parts).map(stand_text).join(', ')}: ${what}`],
};

// Where the CPUs of a race stand: each in a program, by its number in the file, at a pc.
const stands_in = ({ cpu, prog, pc, other, other_prog, other_pc }) =>
    [[cpu, prog, pc], [other, other_prog, other_pc]].map((numbers) => {
        const [cpu, program, pc] = numbers.map(Number);
        return { cpu, program, pc };
    });

const stand_text = ({ cpu, program, pc }) => `CPU ${cpu} at prog ${program} pc ${pc}`;

function found_in(line, is_x86) {
    for (const [kind, form] of FOUND) {
        const parts = form.exec(line)?.groups;
        if (!parts) continue;
        const places = kind === 'race' ? stands_in(parts) : [];
        return { kind, schedule: parts.by ?? '', lines: SAID_OF[kind]({ ...parts, is_x86 }), places };
    }
    return null;
}

function read_explored(printed, is_x86) {
    const lines = printed.trimEnd().split('\n');
    const last = LAST.exec(lines.pop())?.groups;
    if (!last) throw new Error(printed.trim());
    const found = [];
    let budgets = '';
    let same = '';
    const threads = [];
    for (const line of lines) {
        const one = found_in(line, is_x86);
        if (one) found.push(one);
        else if (line.startsWith('budgets ')) budgets = line;
        else if (line.startsWith('threads ')) threads.push(line);
        else if (line.startsWith('no races: ')) same = line;
        else found.at(-1).lines.push(line);
    }
    return { found, budgets, same, threads, is_all: last.all === 'all', states: last.states && Number(last.states) };
}

// `stage` counts the limits that are searched through.
const search = {
    engine: null, number: 0, is_on: false, is_patient: false, is_of_races: false, is_x86: false, stage: 0, came: null,
};

// Searches a file's schedules for outcomes, or for races but for those at values of the maps that are left out, and
// shows what is found so far. Another search, or `stop_search`, ends this one.
async function search_all(text, { is_patient, is_of_races, is_x86, locks }, show) {
    stop_search();
    const mine = search.number;
    search.engine ??= new Engine(engine);
    Object.assign(search, { is_on: true, is_patient, is_of_races, is_x86, stage: 0, came: null });
    const asked = is_of_races ? ['--races', ...locks.flatMap((name) => ['--sync', name])] : [];
    if (is_patient) asked.push('--patient');
    if (is_x86) asked.push('--x86');
    for (const limit of LIMITS) {
        show(search);
        const words = ['explore', '--limit', String(limit), ...asked];
        const { stdout } = await search.engine.call(words, text);
        if (mine !== search.number) return;
        search.came = read_explored(text_of(stdout), is_x86);
        search.stage++;
        if (search.came.is_all) break;
    }
    search.is_on = false;
    show(search);
}

// Ends the search, whose call is rejected.
function stop_search() {
    search.number++;
    if (search.is_on) search.engine.stop();
    search.is_on = false;
}

// ---- Drawing

const in_thousands = (number) => number.toLocaleString('en');

// How many of each kind were found: what was looked for in any case, others where there are some.
function counts_text({ found, states }, is_of_races) {
    const count = (kind) => found.filter((it) => it.kind === kind).length;
    if (is_of_races) return counted(count('race'), 'race');
    const deadlocks = count('deadlock') ? `, ${counted(count('deadlock'), 'deadlock')}` : '';
    return `${counted(count('outcome'), 'outcome')}${deadlocks}, ${in_thousands(states)} states`;
}

// What a whole search says of the orders of turns that aren't listed.
function no_other_text({ is_patient, is_of_races, is_x86 }, { budgets, same }) {
    const order = is_x86 ? 'order of turns and flushes' : 'order of turns';
    if (same) return 'No order of turns has another, and on x86 the outcomes are the same.';
    if (!is_patient) return `No ${order} has another.`;
    if (is_of_races) return 'No order of turns that uses no budget up has another.';
    if (!budgets) return `No ${order} has another, and none uses a budget up.`;
    const some = budgets === 'budgets can run out' ? 'Some order uses' : 'Some order may use';
    return `No ${order} that uses no budget up has another. ${some} one up.`;
}

// In which ways worker threads may reach more.
function threads_text({ threads }) {
    return threads.map((line) => ` T${line.slice(1)}.`).join('');
}

function every_text(asked) {
    const { came, is_on, is_of_races, stage } = asked;
    const goes_on = is_on ? `Searching up to ${in_thousands(LIMITS[stage])} states…` : '';
    if (!came) return goes_on;
    const what = counts_text(came, is_of_races);
    if (!came.is_all) return is_on ? `So far: ${what}. ${goes_on}` : `Not all: ${what}, and there may be more.`;
    return `All: ${what}. ${no_other_text(asked, came)}${threads_text(came)}`;
}

// What was found. In an outcome, the lines that not all of them have stand out.
function found_row({ kind, schedule, lines }, number, is_shared, is_x86) {
    const row = make('li', kind);
    const said = make('pre');
    for (const line of lines) said.append(make('span', is_shared(line) ? 'shared' : '', line), '\n');
    const by = make('code', 'by', schedule ? `by ${schedule}` : 'by no turn');
    by.title = is_x86 ? BY_FLUSHES : BY_TURNS;
    const button = make('button', '', 'Show me');
    button.type = 'button';
    button.dataset.found = number;
    button.setAttribute('aria-label', `Show me number ${number + 1}: ${kind === 'outcome' ? 'an' : 'a'} ${kind}`);
    row.append(button, said, by);
    return row;
}

function draw_every(state) {
    const { came, is_on } = state;
    write(at('every-said'), every_text(state));
    at('every-stop').hidden = at('every-bar').hidden = !is_on;
    Object.assign(at('every-bar'), { max: LIMITS.length, value: state.stage });
    at('explore').disabled = at('find-races').disabled = is_on;
    if (at('found').drawn === came) return;
    at('found').drawn = came;
    const found = came?.found ?? [];
    const outcomes = found.filter(({ kind }) => kind === 'outcome');
    const counts = new Map();
    for (const line of outcomes.flatMap(({ lines }) => lines)) counts.set(line, (counts.get(line) ?? 0) + 1);
    const is_shared = (line) => counts.get(line) === outcomes.length;
    const rows = found.slice(0, MOST_FOUND).map((it, number) => found_row(it, number, is_shared, state.is_x86));
    if (found.length > MOST_FOUND) rows.push(make('li', 'empty', `and ${found.length - MOST_FOUND} more`));
    at('found').replaceChildren(...rows);
}

// Marks what was found by the schedule that the turns are.
function mark_found({ turns, is_x86 }) {
    if (!search.came) return;
    const by = search.is_x86 === is_x86 && turns.length ? schedule_of(turns) : null;
    search.came.found.slice(0, MOST_FOUND).forEach(({ schedule }, number) => {
        const row = at('found').children[number];
        const is_shown = schedule === by;
        row.classList.toggle('shown', is_shown);
        if (is_shown) row.setAttribute('aria-current', 'true');
        else row.removeAttribute('aria-current');
    });
}

// By program, the pcs at which CPUs race.
function raced_pcs(file) {
    const [pcs, names] = [new Map(), [...file.programs.keys()]];
    for (const { program, pc } of (search.came?.found ?? []).flatMap(({ places }) => places)) {
        const name = names[program];
        pcs.set(name, (pcs.get(name) ?? new Set()).add(pc));
    }
    return pcs;
}

// Marks the lines at which CPUs race, in the listings and in the run file.
function mark_races({ file }) {
    const pcs = file ? raced_pcs(file) : new Map();
    for (const list of document.querySelectorAll('.listing')) mark_raced_rows(list, pcs.get(list.program));
    const marks = [...pcs].flatMap(([program, those]) =>
        file.listings.get(program).filter(({ pc, row }) => those.has(pc) && row !== undefined).map(({ row }) => row),
    );
    const drawn = marks.join();
    if (at('races').drawn === drawn) return;
    at('races').drawn = drawn;
    const height = row_height();
    at('races').replaceChildren(...marks.map((row) => {
        const mark = make('div', 'raced-line');
        mark.style.top = `${EDGE + row * height}px`;
        return mark;
    }));
}

function mark_raced_rows(list, pcs) {
    if (list.raced === search.came && list.marked === list.firstChild) return;
    Object.assign(list, { raced: search.came, marked: list.firstChild });
    for (const row of list.querySelectorAll('[data-pc]')) {
        const is_raced = Boolean(pcs?.has(Number(row.dataset.pc)));
        row.classList.toggle('raced', is_raced);
        row.title = is_raced ? 'A race: another CPU may be about to touch the same bytes' : '';
    }
}
