"""What `ebpf explore` finds of a run file: outcomes, races, states that hang; each with a schedule that leads there."""

import subprocess

LIMIT = 1_000_000


class SearchError(Exception):
    """Why a search has no answer."""


def explore(ebpf, file, *options):
    """Runs a search; returns the lines that it prints."""
    words = [ebpf, "explore", *options, "--limit", str(LIMIT), file]
    done = subprocess.run(words, stdin=subprocess.DEVNULL, capture_output=True, text=True)
    if done.returncode not in (0, 3, 4):
        raise SearchError((done.stdout + done.stderr).strip() or f"explore ended with {done.returncode}")
    return done.stdout.splitlines()


def outcomes(ebpf, file):
    """Returns each outcome with its schedule and its lines, and the last line, which says whether they are all."""
    found, lines = [], explore(ebpf, file)
    notes = [it for it in lines if it.startswith(("all: ", "not all: "))]
    for line in lines:
        if line.startswith("by"):
            found.append({"number": len(found) + 1, "schedule": line[3:], "lines": []})
        elif found and line.startswith(("job ", "map ", "var ", "array ")):
            found[-1]["lines"].append(line)
    return {"outcomes": found, "summary": notes[-1] if notes else ""}


def races(ebpf, file):
    """Returns each data race: its line and the schedule that leads to the state in which both accesses come next."""
    lines = explore(ebpf, file, "--races")
    found = [it.rsplit(" by", 1) for it in lines if it.startswith("race ")]
    made = [{"number": at, "line": line, "schedule": by.strip()} for at, (line, by) in enumerate(found, 1)]
    return {"races": made, "summary": lines[-1] if lines else ""}


def hung(ebpf, file):
    """Returns each schedule after which no turns lead to an end."""
    lines = explore(ebpf, file, "--patient")
    found = [it.removeprefix("hung by").strip() for it in lines if it.startswith("hung by")]
    made = [{"number": at, "schedule": by} for at, by in enumerate(found, 1)]
    return {"hung": made, "summary": lines[-1] if lines else ""}


def turns_of(schedule):
    """Returns the CPUs of a schedule such as `0*9 1*10`, a turn each."""
    made = []
    for word in schedule.split():
        cpu, _, count = word.partition("*")
        if not cpu.isdigit() or not count.isdigit():
            raise SearchError(f"{word!r} isn't CPU*TURNS")
        made += [int(cpu)] * int(count)
    return made
