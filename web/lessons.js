'use strict';

// Sixteen lessons. Each sets a run file and turns, on CPUs with store buffers where it has `is_x86`, asks for something, and
// says by what the program answers whether it is met. In texts, what is between ` is code.

const FIRST = `ebpf-run 1

prog first
        r0 = 6
        r0 *= 6
        exit
end

job 0 first
`;

const BYTES = `ebpf-run 1

prog bytes
        *(u32 *)(r10 - 4) = 0x01020304
        r0 = *(u8 *)(r10 - 4)
        exit
end

job 0 bytes
`;

const READ = `ebpf-run 1

prog read
        r0 = *(u8 *)(r1 + 0)
        exit
end

job 0 read
`;

const INSERT = `ebpf-run 1
map numbers key 4 value 8 max 4 spare 0

prog insert
        *(u32 *)(r10 - 4) = 7
        *(u64 *)(r10 - 16) = 49
        r1 = map 0
        r2 = r10
        r2 += -4
        r3 = r10
        r3 += -16
        r4 = 0
        call 2
        exit
end

job 0 insert
`;

const ADD = `ebpf-run 3
cpus 2
array bss value 8 max 1
var counter bss 0 8

prog add
        r0 = &counter           ; the variable's address
        r1 = *(u64 *)(r0 + 0)
        r1 += 1
        *(u64 *)(r0 + 0) = r1
        r0 = 0
        exit
end

job 0 add
job 1 add
`;

const LOCK = `ebpf-run 3
cpus 2
array bss value 16 max 1
var lock bss 0 8
var count bss 8 8

prog add
        r7 = &lock
take:   r0 = 0
        r1 = 1
        r0 = cmpxchg_64(r7 + 0, r0, r1)
        if r0 != 0 goto take
        r1 = *(u64 *)(r7 + 8)   ; the count, which is beside the lock
        r1 += 1
        *(u64 *)(r7 + 8) = r1
        *(u64 *)(r7 + 0) = 0    ; gives the lock back
        r0 = 0
        exit
end

job 0 add
job 1 add
`;

const TWO_LOCKS = `ebpf-run 3
cpus 2
array bss value 16 max 1
var one bss 0 8
var other bss 8 8

prog first
        r6 = &one
take:   r0 = 0
        r1 = 1
        r0 = cmpxchg_64(r6 + 0, r0, r1) ; takes one lock,
        if r0 != 0 goto take
        r7 = &other
then:   r0 = 0
        r1 = 1
        r0 = cmpxchg_64(r7 + 0, r0, r1) ; and then the other
        if r0 != 0 goto then
        r1 = 0
        r1 = xchg_64(r7 + 0, r1)        ; gives both back
        r1 = 0
        r1 = xchg_64(r6 + 0, r1)
        r0 = 0
        exit
end

prog second
        r6 = &other
take:   r0 = 0
        r1 = 1
        r0 = cmpxchg_64(r6 + 0, r0, r1) ; takes one lock,
        if r0 != 0 goto take
        r7 = &one
then:   r0 = 0
        r1 = 1
        r0 = cmpxchg_64(r7 + 0, r0, r1) ; and then the other
        if r0 != 0 goto then
        r1 = 0
        r1 = xchg_64(r7 + 0, r1)        ; gives both back
        r1 = 0
        r1 = xchg_64(r6 + 0, r1)
        r0 = 0
        exit
end

job 0 first
job 1 second
`;

const MESSAGE = `ebpf-run 3
cpus 2
array bss value 16 max 1
var message bss 0 8
var there bss 8 8

prog send
        r7 = &message
        r8 = &there
        *(u64 *)(r8 + 0) = 1    ; it is there
        *(u64 *)(r7 + 0) = 42   ; the message
        r0 = 0
        exit
end

prog receive
        r7 = &message
        r8 = &there
        r1 = *(u64 *)(r8 + 0)   ; is it there?
        r0 = 42
        if r1 == 0 goto done
        r0 = *(u64 *)(r7 + 0)   ; the message
done:   exit
end

job 0 send
job 1 receive
`;

const FLAG = `ebpf-run 3
cpus 2
array bss value 8 max 1
var flag bss 0 8

prog set
        r7 = &flag
        r1 = 1
        *(u64 *)(r7 + 0) = r1   ; sets the flag
        r0 = 0
        exit
end

prog look
        r7 = &flag
        r0 = 0
        r0 = atomic_fetch_add((u64 *)(r7 + 0), r0) ; looks at it
        exit
end

job 0 set
job 1 look
`;

const BUFFERS = `ebpf-run 3
cpus 2
array bss value 16 max 1
var x bss 0 8
var y bss 8 8

prog first
        r7 = &x
        r8 = &y
        r1 = 1
        *(u64 *)(r7 + 0) = r1   ; writes x
        r0 = *(u64 *)(r8 + 0)   ; reads y
        exit
end

prog second
        r7 = &y
        r8 = &x
        r1 = 1
        *(u64 *)(r7 + 0) = r1   ; writes y
        r0 = *(u64 *)(r8 + 0)   ; reads x
        exit
end

job 0 first
job 1 second
`;

const STACK = `ebpf-run 3
cpus 2
array bss value 24 max 1
var top bss 0 8
var below1 bss 8 8  ; what is below node 1,
var below2 bss 16 8 ; and below node 2
put bss[0] of u64 = 1,2,0

prog pop
        r7 = &top
again:  r1 = *(u64 *)(r7 + 0)   ; the top
        r2 = r1
        r2 <<= 3
        r2 += r7
        r2 = *(u64 *)(r2 + 0)   ; what is below it
        r0 = r1
        r0 = cmpxchg_64(r7 + 0, r0, r2) ; if the top is still the same
        if r0 != r1 goto again
        exit
end

; Takes both nodes, and gives node 1 back.
prog busy
        r7 = &top
        r0 = 1
        r2 = *(u64 *)(r7 + 8)
        r0 = cmpxchg_64(r7 + 0, r0, r2)
        if r0 != 1 goto out
        r0 = 2
        r2 = *(u64 *)(r7 + 16)
        r0 = cmpxchg_64(r7 + 0, r0, r2)
        if r0 != 2 goto out
        *(u64 *)(r7 + 8) = 0    ; nothing is below node 1 now
        r0 = 0
        r2 = 1
        r0 = cmpxchg_64(r7 + 0, r0, r2)
        r0 = 2                  ; it has node 2
        exit
out:    r0 = 0
        exit
end

job 0 pop
job 1 busy
`;

const HELD = `ebpf-run 3
cpus 2
map single key 4 value 8 max 1 spare 0
put single[0] of u64 = 5

prog hold
        *(u32 *)(r10 - 4) = 0
        r1 = map single
        r2 = r10
        r2 += -4
        call lookup             ; from here on this run holds the value
        r0 = *(u64 *)(r0 + 0)
        exit
end

prog replace
        *(u32 *)(r10 - 4) = 0
        *(u64 *)(r10 - 16) = 6
        r1 = map single
        r2 = r10
        r2 += -4
        call delete
        r1 = map single
        r2 = r10
        r2 += -4
        r3 = r10
        r3 += -16
        r4 = 0
        call update             ; insert another
        exit
end

job 0 hold
job 1 replace
`;

const SEGMENT = `ebpf-run 1
map segment key 4 value 8 max 1 spare 1

; A byte is a place: 0 where it is free, else the number of its item's bucket, and 1.
prog fill
        *(u32 *)(r10 - 4) = 0
        *(u32 *)(r10 - 16) = 0x03010201 ; places 0 to 3: buckets 0, 1, 0, 2
        *(u32 *)(r10 - 12) = 2          ; place 4: bucket 1
        r1 = map 0
        r2 = r10
        r2 += -4
        r3 = r10
        r3 += -16
        r4 = 0
        call 2
        exit
end

; An item of bucket 0 comes. That of the place which the context says moves to place 5.
prog insert
        r6 = *(u8 *)(r1 + 0)
        *(u32 *)(r10 - 4) = 0
        r1 = map 0
        r2 = r10
        r2 += -4
        call 1
        r2 = r0
        r2 += r6
        r3 = *(u8 *)(r2 + 0)    ; the item there
        *(u8 *)(r0 + 5) = r3    ; moves to place 5,
        *(u8 *)(r2 + 0) = 1     ; and the new one comes
        r0 = 6
        r0 -= r3                ; how far 5 is behind its bucket
        exit
end

job 0 fill
job 0 insert ctx 00
`;

const times = (count, cpu) => Array(count).fill(cpu);

// ---- What a check asks of a state: all of it is the program's answer.

const ends_of = ({ known, shown }) => known.slice(0, shown).map((turn) => turn.ended).filter((end) => end);
const end_of = (state, job) => ends_of(state).find((end) => end.job === job);
const met = (said) => ({ is_met: true, said });
const not_yet = (said) => ({ is_met: false, said });

// What a variable is; null where the file has none of this name.
function number_in({ views }, name) {
    const number = views.after.variables.get(name);
    return number === undefined ? null : BigInt(number);
}

function ends_with(state, job, wanted) {
    const end = end_of(state, job);
    if (!end) return not_yet(`Job ${job} hasn't ended.`);
    return end.how === wanted ? met(`Job ${job} ended with ${wanted}.`) : not_yet(`Job ${job} ended: ${end.how}.`);
}

function counter_is(state, wanted) {
    if (ends_of(state).length < 2) return not_yet('Both jobs have to end.');
    const number = number_in(state, 'counter');
    const said = `Both jobs have ended, and the counter is ${number}.`;
    return number === wanted ? met(said) : not_yet(`${said} Go back, and try another order.`);
}

const MOST_STATES = 20000; // what the lesson asks for takes fewer
const COUNTED = 'var counter=2';

async function every_order_counts({ file }, machine) {
    const { stdout } = await machine.engine.call(['explore', '--limit', String(MOST_STATES)], file.text);
    const { found, is_all } = read_explored(text_of(stdout));
    const is_right = (line) => line === COUNTED || /^job \d+ cpu \d+ r0=/.test(line);
    const wrong = found.find(({ lines }) => !lines.includes(COUNTED) || !lines.every(is_right));
    if (wrong) {
        const bad = wrong.lines.find((line) => !is_right(line)) ?? 'no variable has this name';
        return { ...not_yet(`In some order of turns: ${bad}.`), turns: turns_of_schedule(wrong.schedule, MOST_TURNS) };
    }
    if (!is_all) return not_yet(`There are more than ${MOST_STATES} states: it can be said shorter.`);
    return met('Whatever the order of turns, the counter ends at 2.');
}

async function every_order_ends({ file }, machine) {
    const { stdout } = await machine.engine.call(['explore', '--patient', '--limit', String(MOST_STATES)], file.text);
    const lines = text_of(stdout).split('\n');
    const hung = lines.find((line) => line.startsWith('hung by'));
    if (hung) {
        const turns = turns_of_schedule(hung.slice('hung by '.length), MOST_TURNS);
        return { ...not_yet('In some order of turns each CPU waits for the other, for ever.'), turns };
    }
    if (!lines.some((line) => line.startsWith('all: '))) return not_yet(`There are more than ${MOST_STATES} states: it can be said shorter.`);
    if (!lines.some((line) => line.startsWith('job 0 cpu 0 r0=0'))) return not_yet('Both jobs have to end with r0=0.');
    const takes = file.text.split('\n').filter((line) => /cmpxchg_64/.test(line.split(';')[0])).length;
    return takes < 4 ? not_yet('Each program has to take both locks.') : met('Whatever the order of turns, both jobs can end.');
}

async function every_message_arrives({ file }, machine) {
    const { stdout } = await machine.engine.call(['explore', '--limit', String(MOST_STATES)], file.text);
    const { found, is_all } = read_explored(text_of(stdout));
    const wrong = found.find(({ lines }) => !lines.includes('job 1 cpu 1 r0=42'));
    if (wrong) {
        const bad = wrong.lines.find((line) => line.startsWith('job 1 ')) ?? 'job 1 has no end';
        return { ...not_yet(`In some order of turns: ${bad}.`), turns: turns_of_schedule(wrong.schedule, MOST_TURNS) };
    }
    if (!is_all) return not_yet(`There are more than ${MOST_STATES} states: it can be said shorter.`);
    const is_kept = /\(r8 \+ 0\) = 1/.test(file.text) && /\(r7 \+ 0\) = 42/.test(file.text) && /if r1 == 0/.test(file.text);
    return is_kept ? met('Whoever sees that the message is there sees the message.') : not_yet('Both stores, and the question, have to stay.');
}

async function no_order_races({ file }, machine) {
    const { stdout } = await machine.engine.call(['explore', '--races', '--limit', String(MOST_STATES)], file.text);
    const { found, is_all } = read_explored(text_of(stdout));
    if (found.length) {
        const [{ lines, schedule }] = found;
        return { ...not_yet(`A race: ${lines[0]}.`), turns: turns_of_schedule(schedule, MOST_TURNS) };
    }
    if (!is_all) return not_yet(`There are more than ${MOST_STATES} states: it can be said shorter.`);
    const is_kept = /xchg_64\(r7 \+ 0|\(r7 \+ 0\) [|+]= r1/.test(file.text) && /= atomic_fetch_\w+\(\(u64 \*\)\(r7 \+ 0\)/.test(file.text);
    return is_kept ? met('No order of turns has a race.') : not_yet('One CPU has to set the flag, and the other to look at it.');
}

function both_read_nothing(state) {
    const ends = [0, 1].map((job) => end_of(state, job));
    if (ends.some((end) => !end)) return not_yet('Both jobs have to end.');
    const said = `Job 0 ended with ${ends[0].how}, and job 1 with ${ends[1].how}.`;
    return ends.every(({ how }) => how === 'r0=0') ? met(said) : not_yet(`${said} Go back, and try another order.`);
}

async function no_buffer_hides({ file }, machine) {
    const { stdout } = await machine.engine.call(['explore', '--x86', '--limit', String(MOST_STATES)], file.text);
    const { found, is_all } = read_explored(text_of(stdout));
    const hidden = found.find(({ lines }) => ['job 0 cpu 0 r0=0', 'job 1 cpu 1 r0=0'].every((line) => lines.includes(line)));
    if (hidden) return { ...not_yet('In some order of turns and flushes both read 0.'), turns: turns_of_schedule(hidden.schedule, MOST_TURNS) };
    if (!is_all) return not_yet(`There are more than ${MOST_STATES} states: it can be said shorter.`);
    const is_kept = found.every(({ lines }) => lines.filter((line) => /^job \d cpu \d r0=[01]$/.test(line)).length === 2
        && ['var x=1', 'var y=1'].every((line) => lines.includes(line)));
    return is_kept ? met('On x86, too, one of both reads 1.') : not_yet('Each CPU has to write 1, and to end with what it reads.');
}

function top_is_taken(state) {
    if (ends_of(state).length < 2) return not_yet('Both jobs have to end.');
    const top = number_in(state, 'top');
    if (end_of(state, 1).how !== 'r0=2') return not_yet(`CPU 1 didn't get node 2: ${end_of(state, 1).how}.`);
    return top === 2n ? met('The top is node 2, which CPU 1 has taken: two own it.') : not_yet(`The top is ${top}, and nobody has that node.`);
}

function tries_in_vain(state) {
    const { file, turns, shown, known, views } = state;
    const listing = file.listings.get(file.jobs[1]?.program) ?? [];
    const pc = listing.find((line) => line.code.includes('cmpxchg'))?.pc;
    const is_try = (turn, nth) => turns[nth] === 1 && turn.pc === pc && !turn.is_none;
    const tries = known.slice(0, shown).filter(is_try).length;
    const is_kept = number_in(state, 'lock') === 1n && !views.after.places[0].is_idle;
    if (!is_kept) return not_yet('CPU 0 has to keep the lock meanwhile.');
    const said = `CPU 1 has tried ${counted(tries, 'time')}`;
    return tries < 2 ? not_yet(`${said}.`) : met(`${said}, and spins: the lock is still 1.`);
}

function inserts_while_held(state) {
    const end = end_of(state, 1);
    if (!end) return not_yet("CPU 1's job hasn't ended.");
    if (end_of(state, 0)) return not_yet('CPU 0 has to hold its value meanwhile: set the lesson again.');
    if (end.how === 'r0=18446744073709551604') return not_yet('call update answered 2^64 - 12, which is -ENOMEM.');
    if (end.how !== 'r0=0') return not_yet(`CPU 1's job ended: ${end.how}.`);
    return met('call update answered 0: the other value is in the spare element, and CPU 0 still holds its own.');
}

function key_is_there({ views, known, shown }) {
    const keys = views.after.maps.get('numbers');
    if (!keys?.size) return not_yet('The map is empty.');
    const is_old = views.before.maps.get('numbers').size > 0;
    if (is_old) return not_yet('It is there, from an earlier turn: go back to the one that brought it.');
    return met(`It is the instruction at pc ${known[shown - 1].pc}: call 2, which updates a map.`);
}

const LESSONS = [
    {
        title: 'A first program',
        text:
            'A program counts in eleven registers; what it leaves in `r0` is its result. `Step`, or the ' +
            'key 0, makes one turn of CPU 0: watch `r0` beside the listing, and go back as you like.',
        task: 'Change one number, so that the job ends with r0=42.',
        file: FIRST,
        turns: [],
        check: (state) => ends_with(state, 0, 'r0=42'),
    },
    {
        title: 'Memory',
        text:
            '`r10` points past the last byte of the frame, 512 bytes that the program may use. A store ' +
            'of `u32` writes four bytes there, the lowest byte of the number first.',
        task: 'One of the four bytes is 1. Change the load of `u8`, not the store, so that the job ends with r0=1.',
        file: BYTES,
        turns: [0, 0],
        check: (state) => ends_with(state, 0, 'r0=1'),
    },
    {
        title: 'A fault',
        text:
            '`r1` is the address of the context: bytes that the job is given, here none. A load from ' +
            'where nothing is ends the job with a fault: its name, F1, and its pc.',
        task: 'Give the job a byte: write `ctx 2a` after its last line. It has to end with r0=42.',
        file: READ,
        turns: [0],
        check: (state) => ends_with(state, 0, 'r0=42'),
    },
    {
        title: 'A map',
        text:
            'Maps keep values by keys, for all CPUs and from job to job. A helper takes the map in `r1`, ' +
            'addresses of key and value in `r2` and `r3`, and flags in `r4`.',
        task: 'Go to the turn that puts the key into the map. Which instruction was it?',
        file: INSERT,
        turns: [],
        check: key_is_there,
    },
    {
        title: 'A lost update',
        text:
            'Both CPUs run the same program: load the counter, add 1, store it. Both have its address ' +
            'and are before the load; `0` and `1` say whose turn it is. One after the other, they ' +
            'count to 2. But between the load of one and its store, the other may load too.',
        task: 'Find an order in which both jobs end, and the counter is 1: an addition is lost.',
        file: ADD,
        turns: [0, 1],
        check: (state) => counter_is(state, 1n),
    },
    {
        title: 'Its repair',
        text:
            'An atomic addition is one step, and no other CPU stores within a step. Here the page ' +
            'doesn\'t look at your turns: it has the program go through every order of turns, and shows ' +
            'you one that goes wrong.',
        task: 'Instead of load, addition and store, write `r1 = 1` and `lock *(u64 *)(r0 + 0) += r1`.',
        file: ADD,
        turns: [],
        check: every_order_counts,
    },
    {
        title: 'A lock',
        text:
            'The variable `lock` is a lock: `cmpxchg_64` writes 1 if it finds 0, and answers in `r0` ' +
            'what it found, all in one step. CPU 0 has just taken the lock. Who finds 1 tries again.',
        task: 'Let CPU 1 try twice in vain, while CPU 0 has the lock.',
        file: LOCK,
        turns: times(4, 0),
        check: tries_in_vain,
    },
    {
        title: 'A deadlock',
        text:
            'Two locks, of which each program takes both, and gives both back. But they take them in ' +
            'another order: when each CPU has one, each waits for the other\'s, for ever. The page has ' +
            'the program go through every order of turns, and shows you one that can\'t end.',
        task: 'Let `second` take the locks in the order of `first`.',
        file: TWO_LOCKS,
        turns: [...times(5, 0), ...times(5, 1)],
        check: every_order_ends,
    },
    {
        title: 'A message',
        text:
            'CPU 0 writes a message and a word that says it is there. CPU 1 looks at that word once, and ' +
            'takes the message where it is there. In some order of turns it takes a message that nobody ' +
            'has written yet. (On Arm, plain stores would not be enough even in the right order.)',
        task: 'Swap the two stores of `send`, so that job 1 ends with r0=42 whatever the order of turns.',
        file: MESSAGE,
        turns: times(2, 0),
        check: every_message_arrives,
    },
    {
        title: 'A data race',
        text:
            'Two CPUs race where both may be about to touch the same bytes, one of them to write, and not ' +
            'both by atomic operations. CPU 1 looks at the flag by one, an addition of 0; CPU 0 sets it by ' +
            'a plain store. The page has the program look for races in every order of turns.',
        task: 'Set the flag by an atomic operation, too: `r1 = xchg_64(r7 + 0, r1)` in place of the store.',
        file: FLAG,
        turns: [0, 1],
        check: no_order_races,
    },
    {
        title: 'Store buffers',
        text:
            'Each CPU writes one variable and reads the other: in no order of turns do both read 0. On x86 ' +
            'they may, since a plain store waits in its CPU\'s store buffer, below the registers, while later ' +
            'loads go ahead. `Flush`, or the key f and then the CPU\'s, brings the oldest store to memory; ' +
            'until then no other CPU sees it.',
        task: 'Find an order of turns and flushes in which both jobs end with r0=0.',
        file: BUFFERS,
        turns: [0, 1],
        is_x86: true,
        check: both_read_nothing,
    },
    {
        title: 'An atomic operation waits',
        text:
            'An atomic operation waits until its CPU\'s buffer is empty, and is in memory at once. Here the ' +
            'page has the program make every order of turns and flushes, and shows you one in which both ' +
            'CPUs read 0.',
        task: 'Let one of both read 1 in any order: write by an atomic operation, `r1 = xchg_64(r7 + 0, r1)`, in both programs.',
        file: BUFFERS,
        turns: [0, 1],
        is_x86: true,
        check: no_buffer_hides,
    },
    {
        title: 'ABA',
        text:
            'A stack of two nodes, whose top is changed by `cmpxchg_64`. CPU 0 has read that the top is ' +
            'node 1, and that node 2 is below it. CPU 1 takes both nodes and gives node 1 back: the top ' +
            'is node 1 again, but nothing is below it any more, and CPU 0 can\'t see that.',
        task: 'Find an order in which both jobs end, and the top is node 2, which CPU 1 has.',
        file: STACK,
        turns: times(6, 0),
        check: top_is_taken,
    },
    {
        title: 'A pointer that outlives its run',
        text:
            'The first job stores the address of a value in another map. The second job finds that ' +
            'number there, but a run may only use what its own lookups found: the load at pc 7 is a ' +
            'fault.',
        task: 'Mend `use`: let it look the value up in the map `values`, and load from `r0` once. Job 1 has to end with r0=7.',
        file: null,
        example: 'kept-pointer',
        turns: times(21, 0),
        check: (state) => ends_with(state, 1, 'r0=7'),
    },
    {
        title: '-ENOMEM and spare elements',
        text:
            'CPU 0 holds a value that it has looked up. CPU 1 deletes that key and inserts another ' +
            'value, but the place stays taken until CPU 0\'s job ends, and the map has one element and ' +
            'no spare one. Let CPU 1 run `Alone`: `call update` answers `-ENOMEM`.',
        task: 'Change the map\'s line, so that CPU 1\'s job ends with r0=0 while CPU 0 still holds its value.',
        file: HELD,
        turns: [...times(5, 0), ...times(12, 1)],
        check: inserts_while_held,
    },
    {
        title: 'How a segment displaces',
        text:
            'On threads (`--workers`) a map is a hopscotch table: an item stands near its bucket, so that ' +
            'a lookup reads few places. Here a program plays it in 8 places, of which 4 are near: the ' +
            'bucket\'s own and the 3 after it. The free place 5 is too far from bucket 0, so an item ' +
            'moves there, and the new one takes its place.',
        task: 'Which item stays near its bucket at place 5? Name its place after `ctx`: job 1 has to end with r0=3.',
        file: SEGMENT,
        turns: times(11 + 8, 0),
        check: (state) => ends_with(state, 1, 'r0=3'),
    },
];

// ---- The panel

let lesson = null; // the number of the one that is open
let checked = 0; // the number of the check that is made last
let checking = 0; // checks under way

function write_marked(node, text) {
    node.replaceChildren(...text.split('`').map((part, nth) => (nth % 2 ? make('code', '', part) : part)));
}

function draw_lesson() {
    const { title, text, task } = LESSONS[lesson];
    at('lesson-title').textContent = `${lesson + 1} of ${LESSONS.length}: ${title}`;
    write_marked(at('lesson-text'), text);
    write_marked(at('lesson-task'), task);
    at('lesson-said').textContent = '';
    at('lesson-back').disabled = lesson === 0;
    at('lesson-next').disabled = lesson === LESSONS.length - 1;
}

function show_lesson(is_shown) {
    at('lesson').hidden = !is_shown;
    at('lessons').setAttribute('aria-expanded', String(is_shown));
}

function close_lesson() {
    lesson = null;
    show_lesson(false);
}

function open_lesson(number, load) {
    lesson = number;
    draw_lesson();
    show_lesson(true);
    name_example('');
    const { file, example, turns, is_x86 = false } = LESSONS[number];
    return load(file ?? examples[example].text, turns, turns.length, is_x86);
}

// Tells whether what the lesson asks for is met. Of a check that asks the program, the last one counts.
async function check_lesson(state) {
    const mine = ++checked;
    if (lesson === null) return;
    const said = at('lesson-said');
    if (!state.file) {
        said.textContent = '';
        return;
    }
    checking++;
    try {
        const { is_met, said: told, turns } = await LESSONS[lesson].check(state, machine);
        if (mine !== checked || lesson === null) return;
        said.replaceChildren(make('strong', '', is_met ? 'Met. ' : 'Not yet. '), told);
        said.classList.toggle('met', is_met);
        if (!turns) return;
        const show = make('button', '', 'Show me');
        show.type = 'button';
        show.addEventListener('click', () => show_order(turns, Boolean(LESSONS[lesson].is_x86)));
        said.append(' ', show);
    } catch (error) {
        if (mine === checked) said.textContent = `The program gave no answer: ${error.message}`;
    } finally {
        checking--;
    }
}

function listen_to_lessons(load) {
    at('lessons').addEventListener('click', () => (lesson === null ? open_lesson(0, load) : close_lesson()));
    at('lesson-reset').addEventListener('click', () => open_lesson(lesson, load));
    for (const [name, by] of [['lesson-back', -1], ['lesson-next', 1]]) {
        at(name).addEventListener('click', async () => {
            await open_lesson(lesson + by, load);
            at('lesson-title').focus();
        });
    }
}
