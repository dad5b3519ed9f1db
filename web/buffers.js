'use strict';

// Store buffers: what of each waits between its CPU and the maps, as `buffer` of `ebpf debug --x86` answers, and the button
// that brings the oldest store of it to memory.

const MOST_WAITING = 20; // stores of a buffer that are shown

function make_buffer(cpu) {
    const part = make('div', 'buffer');
    const title = make('h3', '', 'Store buffer, the oldest first');
    title.id = `buffer-${cpu}`;
    const flush = make('button', 'flush', 'Flush');
    flush.type = 'button';
    flush.dataset.cpu = cpu;
    flush.setAttribute('aria-label', `Flush CPU ${cpu}`);
    flush.append(' ', make('kbd', '', `f ${CPU_KEYS[cpu]}`));
    flush.title = `The oldest store that waits reaches memory. Keys: f, then ${CPU_KEYS[cpu]}`;
    const list = make('ol', 'waiting');
    list.setAttribute('aria-labelledby', `cpu-${cpu} ${title.id}`);
    part.append(title, flush, list);
    return part;
}

// A store with its address by name, as `u64 x = 1`.
function store_text({ size, address, number }, { file, base }) {
    return `u${8 * size} ${address_text(address, file) ?? number_text(address, 'hex')} = ${number_text(number, base)}`;
}

// How many stores left a buffer between two moments, the oldest first; those that came since are the last ones.
function left_between(before, after) {
    const stay = (left) => before.slice(left).every(({ text }, nth) => text === after[nth].text);
    let left = Math.max(0, before.length - after.length);
    while (!stay(left)) left++;
    return left;
}

function waiting_row(store, look, state) {
    const row = make('li', look, store_text(store, state));
    if (look === 'gone') row.append(make('span', 'unseen', ' reached memory'));
    if (look === 'new') row.append(make('span', 'unseen', ' came'));
    row.title = `${counted(store.size, 'byte')} at 0x${store.address.toString(16)}: ${number_titles(store.number)}`;
    return row;
}

// What waits in each buffer; what the last turn brought to memory is struck through.
function draw_buffers(state) {
    const { file, views } = state;
    if (!file.is_x86) return;
    for (const [cpu, card] of [...at('cards').children].entries()) {
        const [before, after] = [views.before.buffers[cpu], views.after.buffers[cpu]];
        const left = left_between(before, after);
        const all = [...before.slice(0, left), ...after];
        const look = (nth) => (nth < left ? 'gone' : nth < before.length ? '' : 'new');
        const rows = all.slice(0, MOST_WAITING).map((store, nth) => waiting_row(store, look(nth), state));
        if (all.length > MOST_WAITING) rows.push(make('li', 'more', `and ${all.length - MOST_WAITING} more`));
        if (!rows.length) rows.push(make('li', 'more', 'nothing waits'));
        card.querySelector('.waiting').replaceChildren(...rows);
    }
}

// What a turn of a CPU did to its buffer, in words.
function waiting_text({ file, views }, cpu) {
    if (!file.is_x86) return '';
    const [before, after] = [views.before.buffers[cpu], views.after.buffers[cpu]];
    const left = left_between(before, after);
    if (left) return ` ${counted(left, 'store')} reached memory.`;
    return after.length > before.length ? ' Its store waits.' : '';
}
