"""What a host does to a program: no reader, no room on a disk, few addresses, no threads, memory that isn't zero."""

import fcntl
import os
import re
import subprocess
import tempfile
import time
from pathlib import Path

from damage.asking import Tally

TESTS = Path(__file__).resolve().parent.parent
EXAMPLES = TESTS.parent / "examples"
FIVE = b"b700000005000000 9500000000000000"
UNWRITTEN = (1, b"error: the output couldn't be written\n")
SCRIPT = (EXAMPLES / "lost-update.debug").read_bytes()
ASKED = [
    (["hex"], FIVE),
    (["hex"], b"b7"),
    (["asm"], b"r0 = 5\nexit\n"),
    (["asm", "--listing"], b"r0 = 5\nexit\n"),
    (["disasm"], FIVE),
    (["run", "--maps"], (EXAMPLES / "histogram.run").read_bytes()),
    (["run", "--workers", "2", "--maps"], (TESTS / "maps/atomic-update.run").read_bytes()),
    (["debug"], SCRIPT),
    (["explain", "E9"], b""),
]
MIB = 1 << 20


def preloaded(folder, name):
    """A library of this folder, compiled, to be preloaded."""
    library = f"{folder}/{name}.so"
    source = TESTS / f"{name}.c"
    subprocess.run(["gcc", "-O1", "-shared", "-fPIC", "-o", library, source, "-ldl"], check=True)
    return library


def unwritable(tally, path):
    """Each command where nobody reads its pipe, and where the disk is full."""
    for words, stdin in ASKED:
        reader, pipe = os.pipe()
        os.close(reader)
        for name, output in [("a closed pipe", pipe), ("a full disk", os.open("/dev/full", os.O_WRONLY))]:
            got = subprocess.run([path, *words], input=stdin, stdout=output, stderr=subprocess.PIPE, timeout=60)
            os.close(output)
            tally.see(f"{' '.join(words)} into {name}", (got.returncode, got.stderr) == UNWRITTEN, got)


def largest_file():
    """16 maps with as many and as large elements as a file may say, 16 CPUs, and a job on each, which puts a key."""
    maps = "".join(f"map m{number} key 64 value 256 max 65536 spare 65536\n" for number in range(16))
    jobs = "".join(f"job {cpu} put\n" for cpu in range(16))
    put = "r1 = map 15\nr2 = r10\nr2 += -64\nr3 = r10\nr3 += -320\nr4 = 0\ncall 2\nexit\n"
    return f"ebpf-run 1\ncpus 16\n{maps}prog put\n{put}end\n{jobs}".encode()


def peak_of(path, words, stdin):
    """The most addresses, in bytes, that a run had, as it stands while its answer waits for room in a pipe."""
    reader, pipe = os.pipe()
    fcntl.fcntl(pipe, fcntl.F_SETPIPE_SZ, 4096)
    os.write(pipe, b"x" * 4096)
    with tempfile.TemporaryFile() as given:
        given.write(stdin)
        given.seek(0)
        process = subprocess.Popen([path, *words], stdin=given, stdout=pipe)
    os.close(pipe)
    told = Path("/proc") / str(process.pid)
    # write, the system's call 1, to the file 1
    while process.poll() is None and not (told / "syscall").read_text().startswith("1 0x1 "):
        time.sleep(0.02)
    peak = re.search(r"VmPeak:\s*(\d+) kB", (told / "status").read_text())
    while os.read(reader, 65536):
        pass
    os.close(reader)
    process.wait()
    return int(peak[1]) * 1024


def within(path, words, stdin, addresses):
    """What a run prints and exits with that may have so many bytes of addresses."""
    limited = ["sh", "-c", 'ulimit -v "$0"; exec "$@"', str(addresses // 1024), path, *words]
    got = subprocess.run(limited, input=stdin, capture_output=True, timeout=60)
    return got.stdout, got.stderr, got.returncode


def few_addresses(tally, program):
    """The largest file, where the host gives 1 MiB of addresses more than it needs, and where it gives 1 MiB less."""
    text = largest_file()
    answers = "".join(f"job {cpu} cpu {cpu} r0=0\n" for cpu in range(16)).encode()
    for words, codes in [(["run"], ("L9",)), (["run", "--workers", "16"], ("L9", "J4"))]:
        name = " ".join(words)
        needed = peak_of(program.path, words, text)
        got = within(program.path, words, text, needed + MIB)
        tally.see(f"{name} of the largest file with 1 MiB more than it needs", got == (answers, b"", 0), got)
        got = within(program.path, words, text, needed - MIB)
        refused = [(f"refused {code}\n".encode(), b"", 1) for code in codes]
        tally.see(f"{name} of the largest file with 1 MiB less", got in refused, got)
        for part in (2, 4, 8, 16, 32, 64):
            got = within(program.path, words, text, needed // part - MIB)
            tally.see(f"{name} of the largest file with 1/{part} of it, less 1 MiB", got in refused, got)


def few_addresses_for_states(tally, program):
    """A search whose states are more than memory: each keeps the 65,536 elements of the map that it is of."""
    text = (
        b"ebpf-run 1\nmap m key 4 value 8 max 65536 spare 0\nprog fill\nr6 = 65536\nnext: *(u32 *)(r10 - 4) = r6\nr1 = map 0\n"
        b"r2 = r10\nr2 += -4\nr3 = r10\nr3 += -16\nr4 = 0\ncall 2\nr6 += -1\nif r6 != 0 goto next\nexit\nend\njob 0 fill\n"
    )
    got = within(program.path, ["explore"], text, 256 * MIB)
    told = re.fullmatch(rb"not all: 0 outcomes, (\d+) states\n", got[0])
    is_right = told is not None and int(told[1]) < 1_000_000 and got[1:] == (b"", 4)
    tally.see("explore with 256 MiB for more states than these hold", is_right, got)


def counting_file():
    """16 CPUs add 1 to one value a hundred times each."""
    key = "r1 = map 0\nr2 = r10\nr2 += -4\n"
    put = f"*(u32 *)(r10 - 4) = 0\n*(u64 *)(r10 - 16) = 0\n{key}r3 = r10\nr3 += -16\nr4 = 1\ncall 2\n"
    find = f"{key}call 1\n"
    add = "r6 = 100\nr1 = 1\nagain: lock *(u64 *)(r0 + 0) += r1\nr6 += -1\nif r6 != 0 goto again\nr0 = 0\nexit\n"
    jobs = "".join(f"job {cpu} add\n" for cpu in range(16))
    return f"ebpf-run 1\ncpus 16\nmap c key 4 value 8 max 1 spare 16\nprog add\n{put}{find}{add}end\n{jobs}".encode()


def few_threads(tally, program, library):
    """A worker that can't be started, each in turn and all behind it: the others do its work."""
    text = counting_file()
    wanted = "".join(f"job {cpu} cpu {cpu} r0=0\n" for cpu in range(16)).encode() + b"map c 00000000=4006000000000000\n"
    words = ["run", "--workers", "16", "--maps"]
    for first in range(1, 18):
        for last in (first, 99):
            environment = {"LD_PRELOAD": library, "FAIL_THREAD_FROM": str(first), "FAIL_THREAD_TO": str(last)}
            got = program(words, text, environment)
            tally.see(f"threads {first} to {last} can't be started", got == (wanted, b"", 0), got)


def few_scouts(tally, program, library):
    """A worker of a search that can't be started, each in turn and all behind it: the same is found."""
    text = (EXAMPLES / "lost-additions.run").read_bytes()
    wanted = program(["explore", "--workers", "1"], text)
    for first in range(1, 9):
        for last in (first, 9999):
            environment = {"LD_PRELOAD": library, "FAIL_THREAD_FROM": str(first), "FAIL_THREAD_TO": str(last)}
            got = program(["explore", "--workers", "4"], text, environment)
            tally.see(f"threads {first} to {last} of a search can't be started", got == wanted and got.status == 0, got)


def other_memory(tally, program, library):
    """Memory that is handed out full of 0xAA, wherever its addresses are: the same answers."""
    most = [(["run", "--workers", "16", "--maps"], counting_file())]
    most.append((["run"], largest_file().replace(b"65536", b"256")))
    for words, stdin in [*ASKED, *most]:
        wanted = program(words, stdin)
        for where in ({}, {"FILL_HIGH": "1"}, {"FILL_LOW": "1"}):
            got = program(words, stdin, {"LD_PRELOAD": library, **where})
            name = f"{' '.join(words)} with memory full of 0xAA {''.join(where)}"
            tally.see(name, got == wanted and got.status in (0, 1, 3), got)


def hosts(program):
    """The tally of these cases."""
    tally = Tally()
    with tempfile.TemporaryDirectory() as folder:
        unwritable(tally, program.path)
        few_addresses(tally, program)
        few_addresses_for_states(tally, program)
        few_threads(tally, program, preloaded(folder, "fail_thread"))
        few_scouts(tally, program, preloaded(folder, "fail_thread"))
        other_memory(tally, program, preloaded(folder, "fill_alloc"))
    return tally
