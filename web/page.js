'use strict';

// What the user does. The page's state is the run file, whether CPUs have store buffers, the turns (CPU numbers, in order;
// with store buffers flushes, too) and how many of them are shown; all else is what the program answers for these.

const MORE_TURNS = 10000; // by one press of 'Run to end'

const engine = new Engine(ebpfModule);
const machine = new Machine(engine);

const state = {
    text: '', // as it stands in the editor
    is_x86: false, // whether CPUs have store buffers: a file that is taken says it of itself, too
    file: null, // of a text that the program takes
    refusal: null, // of one that it refuses
    turns: [],
    shown: 0,
    known: [], // what turns came to, as far as told
    views: null, // the machine before and after the last turn that is shown
    made: null, // what was asked last, and answered
    drawn: null, // turns, as they are drawn: they stand again where the program gives no answer
    breakpoints: [], // of each CPU, a set of pcs
    meanings: new Map(), // of codes of faults
    base: 'short',
    version: 0,
};

// ---- One question at a time: what is asked for meanwhile is asked once, afterwards.

let asking = null;
let is_asked_again = false;
let acting = Promise.resolve();
let reading = 0; // the number of the text that is read last
let typing = null; // the timer of an edit that isn't read yet

// Does what calls the program, offers 'Stop' where it lasts, and tells what goes wrong.
async function calling(act) {
    const slow = setTimeout(() => (at('stop').hidden = false), 500);
    try {
        await act();
    } catch (error) {
        tell(`The program gave no answer: ${error.message}`, true);
    } finally {
        clearTimeout(slow);
        at('stop').hidden = true;
    }
}

function refresh() {
    state.version++; // what is under way is of an earlier state
    is_asked_again = true;
    asking ??= calling(async () => {
        while (is_asked_again) {
            is_asked_again = false;
            await ask();
        }
    }).finally(() => (asking = null));
    return asking;
}

async function ask() {
    const { file, shown, version } = state;
    if (!file) return;
    // What the turns behind the shown ones come to is known, but for a link's.
    const is_all_known = state.known.length >= state.turns.length;
    const turns = is_all_known ? state.turns.slice(0, shown) : [...state.turns];
    let made = null;
    try {
        made = await machine.make(file, turns, shown, state.known.slice(0, turns.length));
    } catch (error) {
        if (state.file === file) Object.assign(state, state.drawn);
        throw error;
    }
    await learn_codes(made);
    if (state.version !== version) return;
    state.known = [...made.turns, ...state.known.slice(turns.length)];
    state.views = made.views;
    state.made = made;
    state.drawn = { turns: state.turns, shown, known: [...state.known] };
    draw(state);
    keep_link();
    check_lesson(state);
    learn_events(state, () => draw_told(state));
}

// Asks what the faults mean that some job ended in.
async function learn_codes({ turns }) {
    for (const { ended } of turns) {
        if (ended?.code && !state.meanings.has(ended.code)) {
            state.meanings.set(ended.code, await meaning_of(engine, ended.code));
        }
    }
}

// ---- The run file

// Takes a text with turns: they are made where the program takes the text, else its refusal is shown.
async function take(text, turns = [], shown = turns.length, is_x86 = state.is_x86) {
    const mine = ++reading;
    const { file, refusal } = await take_file(engine, machine, text);
    if (mine !== reading) return;
    if (state.text !== text) forget_search();
    state.text = text;
    state.is_x86 = is_x86;
    draw_kind(is_x86);
    state.refusal = refusal ?? null;
    draw_refusal(refusal);
    document.body.classList.toggle('refused', Boolean(refusal));
    at('cards').inert = at('lower').inert = Boolean(refusal);
    if (refusal) {
        Object.assign(state, { file: null, turns, shown, known: [], views: null });
        draw_bar(state);
        tell('The run file is refused: nothing runs until it is mended.', true);
        check_lesson(state);
        return;
    }
    at('file-said').textContent = before_commands(text) === text ? '' : 'What stands behind --- is left out.';
    set_file({ ...file, is_x86 }, turns, shown);
    if (state.breakpoints.length !== file.cpus) state.breakpoints = Array.from({ length: file.cpus }, () => new Set());
    draw_frame(state);
    await refresh();
}

// Those of some turns that there are, and how many of them are shown.
function turns_there(turns, shown, is_there) {
    const made = turns.slice(0, shown).filter(is_there);
    return { turns: [...made, ...turns.slice(shown).filter(is_there)], shown: made.length };
}

// Sets a file that the program takes, and turns of the CPUs that it has.
function set_file(file, turns, shown) {
    const there = turns_there(turns, shown, (turn) => cpu_of(turn) < file.cpus);
    Object.assign(state, { file, ...there, known: [], views: null, drawn: { turns: [], shown: 0, known: [] } });
}

// Puts another text into the editor.
function load(text, turns, shown, is_x86) {
    state.breakpoints = [];
    at('text').value = text;
    at('text').scrollTop = at('text').scrollLeft = 0;
    draw_numbers();
    return act(() => take(text, turns, shown, is_x86));
}

// Gives CPUs store buffers, or takes them away: turns stay, and flushes go with them.
function set_x86(is_x86) {
    const { file, turns, shown } = state;
    draw_kind(is_x86);
    Object.assign(state, { is_x86, ...turns_there(turns, shown, (turn) => is_x86 || !is_flush(turn)) });
    if (!file || file.is_x86 === is_x86) return;
    set_file({ ...file, is_x86 }, state.turns, state.shown);
    refresh();
}

// ---- Turns

// Why a turn would change nothing, where that is known.
function idle_text(turn) {
    const { views } = state;
    const cpu = cpu_of(turn);
    if (asking || !views) return null;
    if (is_flush(turn)) return views.after.buffers[cpu].length ? null : `Nothing waits in the store buffer of CPU ${cpu}.`;
    return views.after.places[cpu].is_idle ? `CPU ${cpu} is idle: it has no further job.` : null;
}

// Makes a turn of a CPU, or a flush of its buffer.
function step(turn) {
    if (!state.file || !(cpu_of(turn) < state.file.cpus)) return;
    if (state.shown >= MOST_TURNS) {
        tell(`${MOST_TURNS} turns are the most that this page makes.`, true);
        return;
    }
    const why = idle_text(turn);
    if (why) {
        tell(why);
        return;
    }
    state.turns = [...state.turns.slice(0, state.shown), turn];
    state.known.length = Math.min(state.known.length, state.shown);
    state.shown++;
    refresh();
}

function show_after(shown) {
    if (!state.file) return;
    state.shown = Math.max(0, Math.min(shown, state.turns.length));
    refresh();
}

// Shows the machine after further turns of a file.
async function go_on(file, own, more) {
    if (state.file !== file) return;
    state.turns = [...own, ...more];
    state.known.length = Math.min(state.known.length, own.length);
    state.shown = state.turns.length;
    await refresh();
}

function act(what) {
    acting = acting.then(() => calling(what));
    return acting;
}

const stops_at = (cpu, place) => !place.is_idle && !place.is_waiting && state.breakpoints[cpu]?.has(place.pc);

const with_work = (cpus, { places }) => cpus.filter((cpu) => !places[cpu].is_idle);

// A round of these CPUs, as the program makes it: a turn of each, and with store buffers a flush after it.
const round_of = (cpus, { is_x86 }) => (is_x86 ? cpus.flatMap((cpu) => [cpu, flush_of(cpu)]) : cpus);

// Makes a round: a turn for each CPU with work.
async function make_round() {
    await asking;
    const { file, views } = state;
    if (!file || !views) return;
    const own = state.turns.slice(0, state.shown);
    const round = round_of(with_work([...views.after.places.keys()], views.after), file);
    if (!file.is_x86) return go_on(file, own, round);
    const made = await machine.make(file, [...own, ...round], own.length, state.known.slice(0, own.length));
    return go_on(file, own, those_made(round, made.turns.slice(own.length)));
}

// Those of some turns that changed something: a turn of a CPU without work is none, nor is a flush of nothing.
const those_made = (turns, came) => turns.filter((_, nth) => !came[nth].is_none);

// Makes turns by rounds, each of which is this one, until `is_last` says so of one, no CPU of them has work, or as many are
// made as one press makes. Longer and longer lists are tried, as most runs are short.
async function make_turns(find_round, is_last, otherwise) {
    await asking;
    const { file, views } = state;
    if (!file || !views) return;
    const round = find_round(file, views.after);
    if (!round.length) return;
    const own = state.turns.slice(0, state.shown);
    const told = state.known.slice(0, own.length);
    const most = Math.min(MORE_TURNS, MOST_TURNS - own.length);
    for (let room = 500; ; room *= 5) {
        const more = Array.from({ length: Math.min(room, most) }, (_, turn) => round[turn % round.length]);
        const made = await machine.make(file, [...own, ...more], own.length, told);
        const came = made.turns.slice(own.length);
        const last = came.findIndex((turn, nth) => !turn.is_none && !is_flush(more[nth]) && is_last(more[nth], turn));
        const is_over = last >= 0 || came.slice(-round.length).every((turn) => turn.place.is_idle);
        if (!is_over && room < most) continue;
        const kept = those_made(more.slice(0, last < 0 ? more.length : last + 1), came);
        await go_on(file, own, kept);
        if (!is_over) tell(otherwise(kept.length), true);
        return;
    }
}

const press_again = (count) => `${counted(count, 'turn')} more, and some CPU has work: press again to go on.`;

function run_to_end() {
    const round = (file, now) => round_of(with_work([...now.places.keys()], now), file);
    return make_turns(round, (cpu, { place }) => stops_at(cpu, place), press_again);
}

// Turns of this CPU alone, up to a breakpoint of it or to the end of its job.
function run_alone(cpu) {
    const round = (_, now) => with_work([cpu], now);
    return make_turns(round, (_, { ended, place }) => ended || stops_at(cpu, place), press_again);
}

// This CPU alone, up to this pc, or until it has no work left.
async function run_to(cpu, pc) {
    await asking;
    const { file, turns, shown } = state;
    if (!file) return;
    const own = turns.slice(0, shown);
    const made = await machine.make_until(file, own, cpu, pc, MOST_TURNS);
    if (!made) {
        tell(`CPU ${cpu} doesn't come to pc ${pc} in the ${MOST_TURNS} turns that this page makes at most.`, true);
        return;
    }
    await go_on(file, own, made.turns.slice(own.length));
    if (!made.is_there) tell(`CPU ${cpu} has no work left, and came to no pc ${pc}.`, true);
}

function toggle_breakpoint(cpu, pc) {
    const set = state.breakpoints[cpu];
    if (!set.delete(pc)) set.add(pc);
    for (const list of document.querySelectorAll('.listing')) draw_breakpoints(list, state.breakpoints[list.dataset.cpu]);
    tell(`CPU ${cpu}, pc ${pc}: ${set.has(pc) ? 'a breakpoint' : 'no breakpoint any more'}.`);
}

// ---- Every schedule

async function explore(is_of_races) {
    const text = state.file?.text;
    if (text === undefined) return;
    const locks = at('locks').value.split(/[\s,]+/).filter((name) => name);
    try {
        const is_x86 = state.is_x86 && !is_of_races;
        await search_all(text, { is_patient: at('patient').checked, is_of_races, is_x86, locks }, draw_search);
    } catch (error) {
        if (error.name !== 'Stopped') {
            search.is_on = false;
            draw_search(search);
            tell(`The search gave no answer: ${error.message}`, true);
        }
    }
}

// What is found, and at which lines CPUs race.
function draw_search(search) {
    draw_every(search);
    mark_found(state);
    mark_races(state);
}

function end_search() {
    stop_search();
    draw_search(search);
}

// What was found is of a text that stands no more.
function forget_search() {
    stop_search();
    search.came = null;
    draw_search(search);
}

// Shows a schedule that leads to what was found: sets the turns to it, on CPUs as those that were searched.
function show_found(number) {
    const { schedule } = search.came.found[number];
    const turns = turns_of_schedule(schedule, MOST_TURNS);
    if (turns === null) {
        tell(`${MOST_TURNS} turns are the most that this page makes.`, true);
        return;
    }
    show_order(turns, search.is_x86);
}

// ---- Links and copies

let keeping = 0;
let kept = '';

function keep_link() {
    clearTimeout(keeping);
    keeping = setTimeout(async () => {
        if (state.text.length > MOST_FILE) return;
        kept = await write_link(state);
        history.replaceState(null, '', kept);
    }, 300);
}

async function copy_link() {
    if (state.text.length > MOST_FILE) {
        tell('The run file is too long for a link.', true);
        return;
    }
    kept = await write_link(state);
    history.replaceState(null, '', kept);
    copy(location.href, 'The link');
}

async function open_link() {
    let said = null;
    try {
        said = await read_link(location.hash);
    } catch (error) {
        await load_example('lost-additions');
        tell(`The link can't be read: ${error.message}.`, true);
        return;
    }
    if (!said) {
        await load_example('lost-additions');
        return;
    }
    close_lesson();
    name_example(Object.keys(examples).find((it) => examples[it].text === said.file) ?? '');
    await load(said.file, said.turns, said.shown, said.is_x86);
}

async function copy(text, what) {
    try {
        await navigator.clipboard.writeText(text);
        tell(`${what} is copied.`);
    } catch {
        tell(`The browser lets the page copy nothing: ${what.toLowerCase()} stands below, to be copied by hand.`, true);
        at('to-copy').value = text;
        at('to-copy').hidden = false;
        at('to-copy').select();
    }
}

function script_of_state() {
    const turns = state.turns.slice(0, state.shown);
    return script_of(before_commands(state.text), commands_of(turns, turns.length));
}

// A command for the native program, which makes the turns and then rounds.
function command_of_state() {
    const by = state.shown ? ` --by '${schedule_of(state.turns.slice(0, state.shown))}'` : '';
    return `ebpf run ${state.is_x86 ? '--x86 ' : ''}--maps${by}`;
}

function copy_script() {
    copy(script_of_state(), state.is_x86 ? 'The script, for ebpf debug --x86,' : 'The script');
}

// ---- Examples and lessons

// Sets turns of the file that stands there, on CPUs with store buffers or without.
function show_order(turns, is_x86) {
    act(async () => {
        if (!state.file) return;
        Object.assign(state, { turns: [], shown: 0, known: [] });
        set_x86(is_x86);
        await go_on(state.file, [], turns);
    });
}

function name_example(name) {
    at('example').value = name;
    at('file-about').textContent = examples[name]?.about ?? '';
}

function load_example(name) {
    close_lesson();
    name_example(name);
    return load(examples[name].text);
}

// ---- Listening

const ACTS = {
    start: () => show_after(0),
    back: () => show_after(state.shown - 1),
    forward: () => show_after(state.shown + 1),
    round: () => act(make_round),
    end: () => act(run_to_end),
};
const KEYS = { Home: 'start', Backspace: 'back', ArrowLeft: 'back', ArrowRight: 'forward', r: 'round', e: 'end' };

const FLUSH_KEY = 'f';
let is_to_flush = false; // that key came last, and the next one says which CPU

function listen_to_keys(event) {
    if (!at('keys').checked || event.ctrlKey || event.metaKey || event.altKey) return;
    if (event.target.closest('textarea, select, input:not([type=checkbox])') || event.key === 'Shift') return;
    const is_flushing = is_to_flush;
    is_to_flush = event.key === FLUSH_KEY && state.is_x86;
    const name = KEYS[event.key];
    const cpu = CPU_KEYS.indexOf(event.key);
    if (!name && cpu < 0 && !is_to_flush) return;
    event.preventDefault();
    if (event.repeat && asking) return; // a key that is held steps as fast as it is answered
    if (is_to_flush) tell('A flush: of which CPU?');
    else if (!name) step(is_flushing ? flush_of(cpu) : cpu);
    else if (!at(name).disabled) ACTS[name]();
}

// In a listing, a line is chosen by up and down.
function listen_in_listing(event) {
    const list = event.target.closest('.listing');
    if (!list || event.ctrlKey || event.metaKey || event.altKey) return;
    const cpu = Number(list.dataset.cpu);
    const rows = [...list.querySelectorAll('[data-pc]')];
    const chosen = list.querySelector('.chosen') ?? list.querySelector('.current');
    const pc = chosen && Number(chosen.dataset.pc);
    if (event.key === 'Enter' && chosen) act(() => run_to(cpu, pc));
    else if (event.key === 'b' && chosen) toggle_breakpoint(cpu, pc);
    else if (event.key === 'ArrowDown' || event.key === 'ArrowUp') {
        const next = rows[rows.indexOf(chosen) + (event.key === 'ArrowDown' ? 1 : -1)];
        if (next) choose_line(list, next);
    } else return;
    event.preventDefault();
    event.stopPropagation();
}

function choose_line(list, row) {
    for (const old of list.querySelectorAll('.chosen')) {
        old.classList.remove('chosen');
        old.removeAttribute('aria-selected');
    }
    row.classList.add('chosen');
    row.setAttribute('aria-selected', 'true');
    list.setAttribute('aria-activedescendant', row.id);
    show_rows([row]);
}

function listen_to_cards() {
    const cards = at('cards');
    cards.addEventListener('keydown', listen_in_listing);
    cards.addEventListener('click', ({ target }) => {
        const button = target.closest('button');
        const pc = target.closest('.pc')?.parentElement.dataset.pc;
        if (button?.classList.contains('step')) step(Number(button.dataset.cpu));
        else if (button?.classList.contains('flush')) step(flush_of(Number(button.dataset.cpu)));
        else if (button) act(() => run_alone(Number(button.dataset.cpu)));
        else if (pc !== undefined) toggle_breakpoint(Number(target.closest('.listing').dataset.cpu), Number(pc));
    });
    cards.addEventListener('dblclick', ({ target }) => {
        const pc = target.closest('.pc') ? undefined : target.closest('li')?.dataset.pc;
        if (pc !== undefined) act(() => run_to(Number(target.closest('.listing').dataset.cpu), Number(pc)));
    });
}

// An edit of the file keeps the turns, so that what it changes is seen at the same place.
function listen_to_editor() {
    const editor = at('text');
    editor.addEventListener('input', () => {
        draw_numbers();
        name_example('');
        at('refused-line').hidden = at('refusal').hidden = true;
        clearTimeout(typing);
        typing = setTimeout(() => {
            typing = null;
            act(() => take(editor.value, state.turns, state.shown));
        }, 250);
    });
    editor.addEventListener('scroll', () => place_lines(state.refusal), { passive: true });
}

function listen_to_header() {
    const chooser = at('example');
    chooser.append(new Option('your own text', ''));
    for (const [name, { title }] of Object.entries(examples)) chooser.append(new Option(`${name}: ${title}`, name));
    chooser.addEventListener('change', () => chooser.value && load_example(chooser.value));
    at('copy-link').addEventListener('click', copy_link);
    at('copy-script').addEventListener('click', copy_script);
    at('copy-by').addEventListener('click', () => copy(command_of_state(), 'The command'));
    at('to-copy').addEventListener('blur', ({ target }) => (target.hidden = true));
}

function listen_to_timeline() {
    at('at').addEventListener('input', ({ target }) => show_after(Number(target.value)));
    at('track').addEventListener('click', ({ clientX }) => {
        const turn = Math.floor((clientX - at('track').getBoundingClientRect().left) / CELL);
        if (turn < state.turns.length) show_after(turn + 1);
    });
    at('turns').addEventListener('scroll', () => state.file && state.views && draw_scrolled(state), { passive: true });
}

function listen_to_every() {
    at('explore').addEventListener('click', () => explore(false));
    at('find-races').addEventListener('click', () => explore(true));
    at('every-stop').addEventListener('click', end_search);
    at('found').addEventListener('click', ({ target }) => {
        const number = target.closest('button')?.dataset.found;
        if (number !== undefined) show_found(Number(number));
    });
}

function listen() {
    for (const [name, what] of Object.entries(ACTS)) at(name).addEventListener('click', what);
    at('stop').addEventListener('click', () => engine.stop());
    at('x86').addEventListener('change', ({ target: { checked } }) => act(() => set_x86(checked)));
    at('raw').addEventListener('toggle', () => draw_raw(state));
    at('base').addEventListener('change', ({ target }) => {
        state.base = target.value;
        if (state.file && state.views) draw(state);
    });
    listen_to_header();
    listen_to_editor();
    listen_to_cards();
    listen_to_timeline();
    listen_to_every();
    listen_to_lessons(load);
    document.addEventListener('keydown', listen_to_keys);
    window.addEventListener('hashchange', () => location.hash !== kept && open_link());
    window.addEventListener('resize', () => state.file && state.views && draw(state));
}

const SAID = {
    proved:
        'The program here is the proved one, compiled for WebAssembly. What is proved is said of its source; ' +
        'the compiler, the browser, the C that stands for the C library and this page are tested.',
    unproved: 'The program here is built without its proofs, for work on the page. What it prints is the same.',
};

async function begin() {
    tell('');
    await open_link();
}

window.ebpfIsThere = true;
at('built').textContent = ebpfBuilt.program ? SAID.proved : SAID.unproved;
listen();
engine.ready.then(begin, (error) => {
    const needs = 'which needs WebAssembly with 64-bit memory (Chromium 133, Firefox 134, or later)';
    document.body.classList.add('unable');
    tell(`This browser can't run the program, ${needs}: ${error.message}`, true);
});
