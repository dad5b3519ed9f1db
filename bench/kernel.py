"""The running kernel's own BPF, by bpf(2): a hash map of it and programs, which it runs on the cores that it is told.

Where it lets this process do that, its compiler or its interpreter runs them: `how` says which.
"""
import ctypes, os, pathlib, platform, struct, threading, time

# linux/bpf.h: commands, and kinds of maps and programs; and the call's number (asm/unistd.h).
MAP_CREATE, PROGRAM_LOAD, PROGRAM_RUN = 0, 5, 10
HASH, RAW_TRACEPOINT = 1, 17
CALL = {"x86_64": 321, "aarch64": 280}.get(platform.machine())
WIDE, OF_MAP = 0x18, 1

libc = ctypes.CDLL(None, use_errno=True)


def bpf(command, attributes):
    """One call of bpf(2). Answers what it returned, and the attributes as the kernel left them."""
    room = ctypes.create_string_buffer(attributes, max(len(attributes), 128))
    came = libc.syscall(CALL, command, room, len(room))
    if came < 0:
        raise OSError(ctypes.get_errno(), os.strerror(ctypes.get_errno()))
    return came, room.raw


def new_map(key, value, keys):
    return bpf(MAP_CREATE, struct.pack("<5I", HASH, key, value, keys, 0))[0]


def load(words, maps):
    """A program of these words, in which a map's number stands where its file is to stand."""
    code = bytearray(words)
    for at in range(0, len(code), 8):
        if code[at] == WIDE and code[at + 1] >> 4 == OF_MAP:
            struct.pack_into("<I", code, at + 4, maps[struct.unpack_from("<I", code, at + 4)[0]])
    text, license = ctypes.create_string_buffer(bytes(code)), ctypes.create_string_buffer(b"GPL")
    log = ctypes.create_string_buffer(1 << 16)
    places = ctypes.addressof(text), ctypes.addressof(license)
    try:
        return bpf(PROGRAM_LOAD, struct.pack("<IIQQIIQ", RAW_TRACEPOINT, len(code) // 8, *places, 0, 0, 0))[0]
    except OSError as why:
        # once more, for what the verifier says
        try:
            bpf(PROGRAM_LOAD, struct.pack("<IIQQIIQ", RAW_TRACEPOINT, len(code) // 8, *places, 1, len(log), ctypes.addressof(log)))
        except OSError:
            pass
        raise OSError(why.errno, f"{why.strerror}: {log.value.decode(errors='replace')[-300:]}") from None


def run(program, context):
    """Runs a program once, on the core of this thread, and answers its result."""
    room = ctypes.create_string_buffer(context, len(context))
    asked = struct.pack("<4I2Q4I2Q3I", program, 0, 0, 0, 0, 0, 0, 0, len(context), 0, ctypes.addressof(room), 0, 0, 0, 0)
    return struct.unpack_from("<I", bpf(PROGRAM_RUN, asked)[1], 4)[0]


def run_all(program, contexts, threads):
    """Seconds in which so many threads run the program on each context, a list for each core, and the sum of the results.

    A thread does the cores' lists in turn, each on the core itself."""
    gate, sums = threading.Barrier(threads + 1), [0] * threads

    def work(thread):
        gate.wait()
        for core in range(thread, len(contexts), threads):
            os.sched_setaffinity(0, {core})
            for context in contexts[core]:
                sums[thread] += run(program, context)

    started = [threading.Thread(target=work, args=[thread]) for thread in range(threads)]
    for it in started:
        it.start()
    gate.wait()
    start = time.perf_counter()
    for it in started:
        it.join()
    return time.perf_counter() - start, sum(sums)


def how(cores):
    """Whether the kernel compiles programs or interprets them; and why it can't be asked, if it can't."""
    if CALL is None:
        return None, f"no number of bpf(2) is known for {platform.machine()}"
    if not set(range(cores)) <= os.sched_getaffinity(0):
        return None, f"cores 0 to {cores - 1} aren't all there"
    try:
        os.close(new_map(4, 8, 1))
    except OSError as why:
        return None, f"bpf(2): {why.strerror}"
    told = pathlib.Path("/proc/sys/net/core/bpf_jit_enable")
    compiles = told.exists() and told.read_text().strip() != "0"
    return ("compiles them" if compiles else "interprets them"), None
