'use strict';

// Draws a state into the page. Whatever comes from a file, a link or the program is written as text alone.

const MOST_KEYS = 200; // of a map
const MOST_VALUES = 16; // of an array whose values are shown though all their bytes are zero
const MOST_LINES = 300; // of a listing, round the current one
const CELL = 30; // the width of a turn
const BESIDE = 10; // turns that are drawn on each side of those in sight
const MANY = 4; // more CPUs than these have small cards
const COLOURS = 8;
const CPU_KEYS = [...'0123456789ABCDEF']; // a key a CPU
const FRAME = 2 * HALF_FRAME;
const ZERO = '0'.repeat(16); // a word of a frame, in hex

// The height of a CPU's row in the timeline, as in style.css.
const lane_height = (file) => (file.cpus > MANY ? 18 : 24);

const at = (name) => document.getElementById(name);

function make(tag, look, text) {
    const made = document.createElement(tag);
    if (look) made.className = look;
    if (text !== undefined) made.textContent = text;
    return made;
}

// Writes only what differs: a state that is like the one before costs no layout.
function write(node, text) {
    if (node.textContent !== text) node.textContent = text;
}

const colour_of = (cpu) => `cpu-${cpu % COLOURS}`;
const counted = (count, what) => `${count} ${what}${count === 1 ? '' : 's'}`;

function number_text(number, base) {
    if (base === 'decimal') return String(number);
    if (base === 'hex') return `0x${number.toString(16)}`;
    if (number < 1n << 32n) return String(number);
    const signed = BigInt.asIntN(64, number);
    return signed < 0n && signed >= -(1n << 31n) ? String(signed) : `0x${number.toString(16)}`;
}

const number_titles = (number) => `${number}, 0x${number.toString(16)}, signed ${BigInt.asIntN(64, number)}`;

function tell(text, is_bad = false) {
    write(at('said'), text);
    at('said').classList.toggle('bad', is_bad);
}

// ---- The run file

const row_height = () => parseFloat(getComputedStyle(at('text')).lineHeight);
const EDGE = 6; // above the first line, as in style.css

function draw_numbers() {
    const count = at('text').value.split('\n').length;
    if (draw_numbers.count === count) return;
    draw_numbers.count = count;
    at('numbers').textContent = Array.from({ length: count }, (_, line) => line + 1).join('\n');
}

// Puts numbers, places and the refusal where the text is scrolled to.
function place_lines(refusal) {
    const { scrollTop, scrollLeft } = at('text');
    for (const name of ['numbers', 'stands', 'races']) at(name).style.transform = `translateY(${-scrollTop}px)`;
    if (!refusal?.line) return;
    const top = EDGE + (refusal.line - 1) * row_height() - scrollTop;
    at('refused-line').style.top = `${top}px`;
    at('refusal').style.top = `${top + row_height()}px`;
    at('caret').style.transform = `translateX(${-scrollLeft}px)`;
}

// Scrolls to a line of the text, where it isn't in sight.
function show_line(line) {
    const editor = at('text');
    const top = EDGE + (line - 1) * row_height();
    const is_seen = top >= editor.scrollTop && top + 4 * row_height() <= editor.scrollTop + editor.clientHeight;
    if (!is_seen) editor.scrollTop = top - editor.clientHeight / 2;
}

function draw_refusal(refusal) {
    const is_placed = Boolean(refusal?.line);
    at('refused-line').hidden = at('refusal').hidden = !is_placed;
    at('file-said').classList.toggle('bad', Boolean(refusal));
    at('text').setAttribute('aria-invalid', String(Boolean(refusal)));
    at('code-page').hidden = !refusal?.page;
    if (!refusal) return;
    at('stands').replaceChildren();
    const place = is_placed ? `Line ${refusal.line} is refused` : 'The file is refused';
    at('file-said').textContent = `${place}, ${refusal.code}: ${refusal.reason}.`;
    at('code-page').querySelector('summary').textContent = `What ${refusal.code} means`;
    at('code-page').querySelector('pre').textContent = refusal.page;
    at('caret').textContent = refusal.caret ?? '';
    at('caret').hidden = !refusal.caret;
    at('why').textContent = [`${refusal.code}: ${refusal.reason}`, ...refusal.hints].join('. ');
    if (is_placed && document.activeElement !== at('text')) show_line(refusal.line);
    place_lines(refusal);
}

// Beside the lines of the file, which CPU stands where.
function draw_stands({ file, views }, height) {
    const rows = new Map();
    views.after.places.forEach((place, cpu) => {
        if (place.is_idle) return;
        const listing = file.listings.get(file.jobs[place.job].program);
        const row = listing.find((line) => line.pc === (place.pc ?? 0))?.row;
        if (row !== undefined) rows.set(row, [...(rows.get(row) ?? []), cpu]);
    });
    const stands = [...rows].flatMap(([row, cpus]) =>
        cpus.slice(0, 2).map((cpu, number) => {
            const is_rest = number === 1 && cpus.length > 2;
            const stand = make('span', `stand ${colour_of(cpu)}`, is_rest ? `+${cpus.length - 1}` : String(cpu));
            stand.style.top = `${EDGE + row * height}px`;
            stand.style.left = `${4 + number * 19}px`;
            return stand;
        }),
    );
    at('stands').replaceChildren(...stands);
}

// ---- Cards

function make_card(cpu) {
    const card = make('section', `card ${colour_of(cpu)}`);
    const title = make('h2', '', `CPU ${cpu} `);
    title.id = `cpu-${cpu}`;
    title.append(make('span', 'place'));
    card.setAttribute('aria-labelledby', title.id);
    const alone = make('button', 'alone', 'Alone');
    alone.setAttribute('aria-label', `Run CPU ${cpu} alone`);
    alone.title = 'Turns of this CPU alone, up to its breakpoint or the end of its job';
    const step = make('button', 'step', 'Step');
    step.setAttribute('aria-label', `Step CPU ${cpu}`);
    step.append(' ', make('kbd', '', CPU_KEYS[cpu]));
    step.title = `Key ${CPU_KEYS[cpu]}`;
    step.setAttribute('aria-keyshortcuts', cpu < 10 ? CPU_KEYS[cpu] : `Shift+${CPU_KEYS[cpu]}`);
    for (const button of [step, alone]) {
        button.type = 'button';
        button.dataset.cpu = cpu;
    }
    const listing = make('ol', 'listing');
    listing.tabIndex = 0;
    listing.dataset.cpu = cpu;
    listing.setAttribute('role', 'listbox');
    listing.setAttribute('aria-label', `Program of CPU ${cpu}`);
    const registers = make('dl', 'registers');
    for (let number = 0; number < 11; number++) registers.append(make('dt', '', `r${number}`), make('dd'));
    const stack = make('table', 'stack');
    stack.setAttribute('aria-label', `Stack of CPU ${cpu}`);
    card.append(title, alone, step, make('ul', 'outcomes'), make('p', 'meaning'), listing, registers, stack, make('p', 'none'));
    card.append(make_buffer(cpu));
    return card;
}

// What stays as long as the file: cards, and the rows of the timeline.
function draw_frame({ file }) {
    const cpus = [...Array(file.cpus).keys()];
    at('cards').replaceChildren(...cpus.map(make_card));
    // Many cards fill more than a window, so turns and maps stand above them.
    const is_many = file.cpus > MANY;
    document.body.classList.toggle('many', is_many);
    at('cards')[is_many ? 'before' : 'after'](at('lower'));
    at('names').replaceChildren(...cpus.map((cpu) => make('div', colour_of(cpu), `CPU ${cpu}`)));
    at('track').style.height = `${file.cpus * lane_height(file)}px`;
}

// Says whether CPUs have store buffers, wherever the page is another then.
function draw_kind(is_x86) {
    at('x86').checked = is_x86;
    document.body.classList.toggle('x86', is_x86);
    write(at('moves'), is_x86 ? 'Turns and flushes' : 'Turns');
    write(at('asked-of'), `ebpf ${words_of_debug({ is_x86 }).join(' ')}`);
}

function draw_bar({ file, views, shown, turns }) {
    const has_work = Boolean(file && views?.after.places.some((place) => !place.is_idle));
    at('start').disabled = at('back').disabled = !file || shown === 0;
    at('forward').disabled = !file || shown === turns.length;
    at('round').disabled = at('end').disabled = !has_work;
    for (const button of document.querySelectorAll('.step, .alone')) {
        button.disabled = !file || Boolean(views?.after.places[button.dataset.cpu]?.is_idle);
    }
    for (const button of document.querySelectorAll('.flush')) {
        button.disabled = !file || !views?.after.buffers[button.dataset.cpu]?.length;
    }
}

function place_text(file, place) {
    if (place.is_idle) return 'idle';
    const job = `job ${place.job} ${file.jobs[place.job].program}`;
    return place.is_waiting ? `${job} · waiting` : `${job} · pc ${place.pc} · depth ${place.depth}`;
}

function draw_cards(state) {
    const { file, views, turns, shown, known } = state;
    const ends = Array.from({ length: file.cpus }, () => []);
    const lasts = []; // of each CPU, its last turn that was one
    for (let turn = 0; turn < shown; turn++) {
        if (is_flush(turns[turn])) continue;
        if (known[turn].ended) ends[turns[turn]].push(known[turn].ended);
        if (!known[turn].is_none) lasts[turns[turn]] = known[turn];
    }
    for (const [cpu, card] of [...at('cards').children].entries()) {
        const place = views.after.places[cpu];
        card.classList.toggle('turned', shown > 0 && cpu_of(turns[shown - 1]) === cpu);
        write(card.querySelector('.place'), place_text(file, place));
        draw_ends(card.querySelector('.outcomes'), ends[cpu]);
        write(card.querySelector('.meaning'), state.meanings.get(ends[cpu].at(-1)?.code) ?? '');
        const job = place.job ?? lasts[cpu]?.job;
        const pc = place.is_waiting ? 0 : (place.pc ?? lasts[cpu]?.pc);
        draw_listing(state, card.querySelector('.listing'), cpu, file.jobs[job]?.program, pc, place.is_idle);
        draw_registers(state, card, views.before.registers[cpu], views.after.registers[cpu]);
        draw_stack(state, card.querySelector('.stack'), cpu);
    }
}

function draw_ends(list, ends) {
    const text = ends.map((end) => end.line).join('\n');
    if (list.drawn === text) return;
    list.drawn = text;
    list.replaceChildren(...ends.map((end) => make('li', end.is_good ? '' : 'bad', end.line)));
    list.scrollTop = list.scrollHeight;
}

function make_line(line, cpu) {
    const row = make('li');
    row.setAttribute('role', 'option');
    if (line.pc !== null) {
        row.dataset.pc = line.pc;
        row.id = `line-${cpu}-${line.pc}`;
    } else row.setAttribute('aria-disabled', 'true');
    const parts = [['pc', line.pc ?? ''], ['code', line.code], ['code note', line.note]];
    row.append(...parts.map(([look, text]) => make('span', look, text)));
    return row;
}

// A listing, or of a long one the lines round the current one; its breakpoints and its current line.
function draw_listing({ file, breakpoints }, list, cpu, program, pc, is_done) {
    list.classList.toggle('done', is_done);
    list.hidden = !program;
    if (!program) return;
    const whole = file.listings.get(program);
    const current = whole.findIndex((line) => line.pc !== null && line.pc === pc);
    const from = whole.length <= MOST_LINES ? 0 : Math.max(0, current - MOST_LINES / 2);
    if (list.program !== program || list.from !== from || list.file !== file) {
        list.replaceChildren(...whole.slice(from, from + MOST_LINES).map((line) => make_line(line, cpu)));
        Object.assign(list, { program, from, file, breakpoints: '' });
        list.removeAttribute('aria-activedescendant');
    }
    for (const row of list.querySelectorAll('.current')) {
        row.classList.remove('current');
        row.removeAttribute('aria-current');
    }
    draw_breakpoints(list, breakpoints[cpu]);
    const row = list.children[current - from];
    if (!row) return;
    row.classList.add('current');
    row.setAttribute('aria-current', 'step');
}

function draw_breakpoints(list, set) {
    const drawn = [...(set ?? [])].join();
    if (list.breakpoints === drawn) return;
    list.breakpoints = drawn;
    for (const row of list.querySelectorAll('[data-pc]')) {
        const stops = Boolean(set?.has(Number(row.dataset.pc)));
        row.classList.toggle('stops', stops);
        if (stops) row.setAttribute('aria-description', 'breakpoint');
        else row.removeAttribute('aria-description');
    }
}

// Scrolls listings to these rows, where they aren't in sight.
function show_rows(rows) {
    const tops = rows.map((row) => {
        const { scrollTop, clientHeight } = row.parentElement;
        const top = row.offsetTop;
        const is_seen = top >= scrollTop + 20 && top <= scrollTop + clientHeight - 40;
        return is_seen ? null : top - clientHeight / 2;
    });
    tops.forEach((top, nth) => top === null || (rows[nth].parentElement.scrollTop = top));
}

// The registers, or where the last turn ended the job, as they were before it.
function draw_registers(state, card, before, after) {
    const is_over = !after && Boolean(before);
    card.classList.toggle('runs', Boolean(after));
    card.classList.toggle('over', is_over);
    const said = is_over ? "The registers before the job's last step." : 'Registers are there while a job runs.';
    write(card.querySelector('.none'), said);
    const numbers = after ?? before;
    if (!numbers) return;
    card.querySelectorAll('.registers dd').forEach((cell, register) => {
        const number = numbers[register];
        const is_changed = !is_over && (before ? before[register] !== number : state.shown > 0 && number !== 0n);
        const address = address_text(number, state.file);
        write(cell, (state.base === 'short' && address) || number_text(number, state.base));
        cell.classList.toggle('changed', is_changed);
        if (is_changed) cell.append(make('span', 'unseen', ' changed'));
        cell.title = [address, number_titles(number)].filter((it) => it).join(': ');
    });
}

// The words of a frame that aren't 0, or weren't before, from its top down: where each begins below the top, its
// bytes, and those before.
function frame_words(bytes, before) {
    const words = [];
    for (let below = 8; below <= FRAME; below += 8) {
        const from = 2 * (FRAME - below);
        words.push({ below, bytes: bytes.slice(from, from + 16), before: before?.slice(from, from + 16) });
    }
    return words.filter((word) => word.bytes !== ZERO || (word.before ?? ZERO) !== ZERO);
}

function stack_row(state, name, { below, bytes, before }) {
    const row = make('tr');
    const title = make('th', '', `${name} - ${below}`);
    title.scope = 'row';
    const is_new = state.shown > 0;
    row.append(title, bytes_cell(bytes, is_new ? (before ?? ZERO) : bytes), make('td', 'number', value_text(bytes, state)));
    return row;
}

// The live frames, the current one first; where the last turn ended the job, as they were before it.
function draw_stack(state, table, cpu) {
    const { before, after } = state.views;
    const place = after.places[cpu];
    const is_over = place.depth === undefined;
    const depth = is_over ? (before.places[cpu].depth ?? 0) : place.depth;
    const rows = [];
    for (let frame = depth - 1; frame >= 0; frame--) {
        const [old, now] = [before.frames[cpu][frame], (is_over ? before : after).frames[cpu][frame]];
        if (!now) continue;
        const name = frame === depth - 1 ? 'r10' : `frame ${frame}`;
        rows.push(...frame_words(now, is_over ? now : old).map((word) => [name, word]));
    }
    const drawn = JSON.stringify([state.base, state.shown > 0, is_over, rows]);
    if (table.drawn === drawn) return;
    table.drawn = drawn;
    table.hidden = !rows.length;
    table.replaceChildren(...rows.map(([name, word]) => stack_row(state, name, word)));
}

// ---- The timeline: the turns that are in sight, a row a CPU; those behind the shown one are pale.

// An event as the program tells it, with values' addresses by name.
function event_text({ text }, file) {
    return text.replace(/\b0x[0-9a-f]+/, (number) => address_text(number, file) ?? number);
}

// What the last turn did to the store.
function seen_text({ file, base }, { event, flushed } = {}) {
    if (flushed) return `Memory got: ${store_text(flushed, { file, base })}`;
    return event ? `The store saw: ${event_text(event, file)}` : '';
}

function draw_timeline(state, { width, scrolled }) {
    const { file, turns, shown, known } = state;
    write(at('event'), seen_text(state, known[shown - 1]));
    write(at('count'), turns.length ? `${shown} of ${turns.length}` : '');
    Object.assign(at('at'), { max: turns.length, value: shown, disabled: !turns.length });
    at('track').style.minWidth = `${Math.max(turns.length * CELL + CELL, 100)}px`;
    const first = Math.max(0, Math.floor(scrolled / CELL) - BESIDE);
    const last = Math.min(turns.length, first + Math.ceil(width / CELL) + 2 * BESIDE);
    Object.assign(at('track'), { first, last });
    const height = lane_height(file);
    const cells = Array.from({ length: file.cpus }, (_, cpu) => {
        const lane = make('div', 'lane');
        lane.style.top = `${(cpu + 0.5) * height - 1}px`;
        return lane;
    });
    for (let turn = first; turn < last; turn++) {
        const cell = make_turn(turn, state);
        cell.style.top = `${cpu_of(turns[turn]) * height}px`;
        cells.push(cell);
    }
    at('track').replaceChildren(...cells);
}

// Draws the turns that a scroll brought into sight, where they aren't drawn yet.
function draw_scrolled(state) {
    const seen = seen_of_timeline();
    const { first, last } = at('track');
    const from = Math.floor(seen.scrolled / CELL);
    const is_drawn = first <= from && (last === state.turns.length || last >= from + seen.width / CELL);
    if (!is_drawn) draw_timeline(state, seen);
}

// How much of the timeline is in sight, and from where on.
function seen_of_timeline() {
    const frame = at('turns');
    return { width: Math.max(frame.clientWidth - at('names').offsetWidth, 100), scrolled: frame.scrollLeft };
}

// The same, scrolled so that the shown turn is in sight.
function scrolled_to({ width, scrolled }, shown) {
    const left = (shown - 1) * CELL;
    const is_seen = left >= scrolled && left + CELL <= scrolled + width;
    return { width, scrolled: is_seen ? scrolled : Math.max(0, left - width * 0.7) };
}

// What a turn did, in few words.
function turn_words(turn, { pc, is_none, ended, event, flushed }, { file, base }) {
    if (is_flush(turn)) return [flushed ? `a flush of ${store_text(flushed, { file, base })}` : 'a flush of nothing'];
    return [is_none ? 'no work' : `pc ${pc}`, event && event_text(event, file), ended?.line];
}

function make_turn(turn, state) {
    const { turns, shown } = state;
    const known = state.known[turn] ?? {};
    const { pc, is_none, ended, event } = known;
    const [cpu, is_of_buffer] = [cpu_of(turns[turn]), is_flush(turns[turn])];
    const cell = make('div', `turn ${colour_of(cpu)}`, is_none ? '–' : is_of_buffer ? '!' : (pc ?? ''));
    if (is_of_buffer) cell.classList.add('flushed');
    if (event) {
        cell.classList.add('seen');
        cell.append(make('span', 'kind', kind_of(event).mark));
    }
    if (pc > 999) cell.classList.add('long');
    if (ended) cell.classList.add(ended.is_good ? 'ended' : 'failed');
    if (turn >= shown) cell.classList.add('ahead');
    if (turn === shown - 1) cell.classList.add('last');
    cell.title = `Turn ${turn + 1}: CPU ${cpu}, ${turn_words(turns[turn], known, state).filter((it) => it).join('; ')}`;
    cell.dataset.turn = turn + 1;
    cell.style.left = `${turn * CELL}px`;
    return cell;
}

// ---- Maps

const pairs = (hex) => hex.match(/../g) ?? [];
const little_endian = (bytes) => BigInt(`0x${[...bytes].reverse().join('')}`);

// Bytes as a number: what an address is, where it is one.
function value_text(bytes, { base, file }) {
    const number = little_endian(pairs(bytes));
    return (base === 'short' && address_text(number, file)) || number_text(number, base);
}

// The bytes of a value, those marked that the last turn changed.
function bytes_cell(value, before) {
    const cell = make('td');
    pairs(value).forEach((byte, place) => {
        if (place) cell.append(' ');
        const is_same = before !== undefined && before.slice(2 * place, 2 * place + 2) === byte;
        cell.append(is_same ? byte : make('mark', '', byte));
    });
    return cell;
}

function map_row(key, value, before, { shown, base }) {
    const row = make('tr', value === undefined ? 'gone' : before === undefined ? 'new' : '');
    const bytes = pairs(value ?? before);
    const numbers = [];
    for (let place = 0; place < Math.min(bytes.length, 32); place += 8) {
        numbers.push(number_text(little_endian(bytes.slice(place, place + 8)), base));
    }
    row.append(make('td', '', pairs(key).join(' ')));
    if (value === undefined) row.append(make('td', '', bytes.join(' ')), make('td', 'number', 'removed'));
    else row.append(bytes_cell(value, shown ? before : value), make('td', 'number', numbers.join(' ')));
    return row;
}

// Which CPUs hold an element, and what has come of its key.
function held_cell(held) {
    const cell = make('td', 'held');
    for (const { cpu } of held) cell.append(make('span', colour_of(cpu), `CPU ${cpu}`), ' ');
    if (held[0]?.gone) cell.append(`${held[0].gone} meanwhile`);
    return cell;
}

// The values of a map that CPUs hold, and that no key leads to any more: by the keys that were deleted or got another
// value, and where no events are told, by their addresses.
function kept_rows(held, state) {
    const addresses = [...new Set(held.map(({ address }) => address))];
    return addresses.map((address) => {
        const holders = held.filter((it) => it.address === address);
        const { cpu, key, bytes } = holders[0];
        const before = state.views.before.held[cpu].find((it) => it.address === address)?.bytes;
        const row = map_row(key ?? '', bytes, before ?? bytes, state);
        row.className = key ? 'kept' : 'keyless';
        if (!key) row.cells[0].textContent = address_text(address, state.file);
        row.append(held_cell(holders));
        return row;
    });
}

// A table's first row, of what its columns have.
function heads(...titles) {
    const head = make('tr');
    for (const title of titles) {
        const cell = make('th', '', title);
        cell.scope = 'col';
        head.append(cell);
    }
    return head;
}

// A table's last row, of what isn't shown.
function more_row(text) {
    const row = make('tr');
    const cell = make('td', '', text);
    cell.colSpan = 4;
    row.append(cell);
    return row;
}

function map_table(name, before, after, state) {
    const table = make('table');
    table.append(make('caption', '', `${name} · ${counted(after.size, 'key')}`));
    const keys = [...new Set([...before.keys(), ...after.keys()])].sort();
    const held = state.held.filter(({ map }) => map === name);
    const kept = held.filter(({ key, gone }) => gone || (!key && are_told(state)));
    if (!keys.length && !kept.length) return table;
    const head = heads('key', 'value, byte by byte', 'as numbers', 'held by');
    const rows = keys.slice(0, MOST_KEYS).map((key) => {
        const row = map_row(key, after.get(key), before.get(key), state);
        row.append(held_cell(after.has(key) ? held.filter((it) => it.key === key && !it.gone) : []));
        return row;
    });
    table.append(head, ...rows, ...kept_rows(kept, state));
    if (keys.length > MOST_KEYS) table.append(more_row(`and ${keys.length - MOST_KEYS} keys more`));
    return table;
}

// The numbers of the variables, those marked that the last turn changed.
function variable_table({ file, views, shown, base }) {
    const table = make('table', 'variables');
    table.append(make('caption', '', counted(file.variables.length, 'variable')), heads('name', 'number'));
    for (const { name } of file.variables) {
        const [before, after] = [views.before, views.after].map(({ variables }) => variables.get(name));
        if (after === undefined) continue; // it can only be read
        const row = make('tr');
        const cell = make('td', 'number');
        const text = number_text(BigInt(after), base);
        cell.append(shown && before !== after ? make('mark', '', text) : text);
        row.append(make('td', '', name), cell);
        table.append(row);
    }
    return table;
}

// Where values of an array are: all, where they are few, else those that have a byte other than zero.
function array_places({ most, is_per_cpu }, cpus, told) {
    if (most * (is_per_cpu ? cpus : 1) > MOST_VALUES) return told.sort((one, other) => one.localeCompare(other, 'en', { numeric: true }));
    return list_of(most, (index) => (is_per_cpu ? list_of(cpus, (cpu) => `${index} cpu ${cpu}`) : [`${index}`])).flat();
}

function array_table(array, before, after, state) {
    const table = make('table', 'array');
    const zero = '00'.repeat(array.value);
    const places = array_places(array, state.file.cpus, [...new Set([...before.keys(), ...after.keys()])]);
    table.append(make('caption', '', `${array.name} · array of ${counted(array.most, 'value')}`));
    if (!places.length) return table;
    table.append(heads('index', 'value, byte by byte', 'as numbers'));
    for (const place of places.slice(0, MOST_KEYS)) {
        const row = map_row('', after.get(place) ?? zero, before.get(place) ?? zero, state);
        row.cells[0].textContent = place;
        table.append(row);
    }
    if (places.length > MOST_KEYS) table.append(more_row(`and ${places.length - MOST_KEYS} values more`));
    return table;
}

function draw_maps(state) {
    const { file, views } = state;
    const { before, after } = views;
    const told = { ...state, held: held_values(state) };
    const tables = [
        ...file.maps.map(({ name }) => map_table(name, before.maps.get(name), after.maps.get(name), told)),
        ...(file.variables.length ? [variable_table(state)] : []),
        ...file.arrays.map((array) => array_table(array, before.arrays.get(array.name), after.arrays.get(array.name), state)),
    ];
    at('tables').replaceChildren(...(tables.length ? tables : [make('p', 'empty', 'The run file has no map.')]));
}

// What is told behind a click: what the store saw, and who holds what.
function draw_told(state) {
    draw_timeline(state, seen_of_timeline());
    draw_maps(state);
}

// ---- The whole

function draw_raw({ made }) {
    if (!made || !at('raw').open) return;
    const last = (lines) => (lines.length > 60 ? ['…', ...lines.slice(-60)] : lines).join('\n');
    at('asked').textContent = last(made.asked);
    at('answered').textContent = last(made.answers);
}

function turn_text(state) {
    const { file, turns, shown, known, views } = state;
    if (!shown) return `No turn is made yet. ${counted(file.cpus, 'CPU')}, ${counted(file.jobs.length, 'job')}.`;
    const { pc, is_none, ended, flushed } = known[shown - 1];
    const [turn, cpu] = [turns[shown - 1], cpu_of(turns[shown - 1])];
    if (flushed) return `Turn ${shown}: a flush of CPU ${cpu}, and ${store_text(flushed, state)} reached memory.`;
    if (is_flush(turn)) return `Turn ${shown}: a flush of CPU ${cpu}, where nothing waited.`;
    const what = is_none ? 'had no work' : `executed pc ${pc}`;
    const done = views.after.places.every((place) => place.is_idle) ? ' No CPU has work.' : '';
    const end = ended ? `, and a job ended: ${ended.line}` : '';
    return `Turn ${shown}: CPU ${cpu} ${what}${end}.${waiting_text(state, cpu)}${done}`;
}

// What is measured is measured before anything is written, and what is scrolled is scrolled at the end, so that
// the browser lays the page out once.
function draw(state) {
    const height = row_height();
    const seen = seen_of_timeline();
    const wanted = scrolled_to(seen, state.shown);
    draw_bar(state);
    draw_cards(state);
    draw_buffers(state);
    draw_stands(state, height);
    draw_maps(state);
    draw_raw(state);
    mark_found(state);
    mark_races(state);
    tell(turn_text(state));
    draw_timeline(state, wanted);
    if (wanted.scrolled !== seen.scrolled) at('turns').scrollLeft = wanted.scrolled;
    show_rows([...document.querySelectorAll('.listing:not([hidden]) .current')]);
}
