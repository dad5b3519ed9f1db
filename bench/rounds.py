"""What benchmarks say of the machine that they ran on, and of rounds in which all that is compared takes turns."""
import os, pathlib, statistics, time


def spent():
    """Processor seconds of all cores so far, without those in which one was idle or waited for a disk (proc(5), /proc/stat)."""
    user, nice, system, idle, waiting, *others = map(int, pathlib.Path("/proc/stat").read_text().split("\n")[0].split()[1:9])
    return (user + nice + system + sum(others)) / os.sysconf("SC_CLK_TCK")


def others(seconds=2):
    """How many cores other processes kept busy meanwhile, and how many processes ran or waited for a core at most."""
    most, before, start = 0, spent(), time.monotonic()
    while time.monotonic() < start + seconds:
        time.sleep(0.05)
        # this process is one of those that run
        most = max(most, int(pathlib.Path("/proc/loadavg").read_text().split()[3].split("/")[0]) - 1)
    return (spent() - before) / (time.monotonic() - start), most


def tell_others():
    """Prints how full the machine is before anything is measured."""
    cores, most = others()
    print(f"beside this, other processes keep {cores:.1f} of {os.cpu_count()} cores busy, and up to {most} want one at a time", flush=True)


def least_and_middle(numbers):
    """The least and the middle of what rounds came to, as text: where they lie apart, the machine was full in some."""
    return f"{min(numbers):.2f}/{statistics.median(numbers):.2f}"
