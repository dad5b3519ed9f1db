#!/usr/bin/env python3
"""Tries the wrong bodies that the gate doesn't try: tests/edits.py [CRATE..]

The gate tries the edits of crates/CRATE/must-fail: at most six a crate, those that a promise rests on.
The others stand in tests/edits/CRATE, in the same form, since each takes the prover half a minute. An
edit has lines `file:`, `old:` and `new:`; the old text stands once in that file.

    tests/edits.py               tries those of which something changed, crate by crate; hours at first
    tests/edits.py bpf_alu       the same of one crate
    tests/edits.py --status      tries none, and says which weren't tried as they stand
    tests/edits.py --check       tries none, and says which can't be applied any more

They are tried with rt must-fail, in a copy below out/edits, over what rt check kept: run `make` first.
What was refused is noted in out/edits/tried.json, with the checksum of all that it was tried over: the
edit, its crate and the crates below, and the kit. The last lines say what wasn't tried so, and since
which commit. While it runs, rt ci would refuse the copy.
"""

import hashlib
import json
import os
import re
import shutil
import signal
import subprocess
import sys
from pathlib import Path

TOP = Path(__file__).resolve().parent.parent
EDITS = TOP / "tests/edits"
OUT = TOP / "out/edits"
TRIED = OUT / "tried.json"
COPY = OUT / "copy"
# How many the gate tries of a crate.
MOST = 6


def crates():
    """The libraries of this repository that each crate names, by crates.txt."""
    lines = [line.partition("#")[0] for line in (TOP / "crates.txt").read_text().splitlines()]
    named = {line.split()[0].rstrip(":"): line.partition(":")[2].split() for line in lines if line.strip()}
    return {crate: [library for library in uses if library in named] for crate, uses in named.items()}


def fault_of(edit, crate):
    """Says why an edit can't be applied to its crate, or None."""
    file, old, texts = None, None, {}
    for line in edit.read_text().splitlines():
        if line.startswith("file: "):
            file = crate / line.removeprefix("file: ").strip()
        elif line.startswith("old: "):
            old = line.removeprefix("old: ")
        elif line.startswith("new:"):
            if file is None or old is None or not file.is_file():
                return "names no text of its crate"
            text = texts.get(file) or file.read_text()
            if text.count(old) != 1:
                return f"its old text stands {text.count(old)} times"
            texts[file] = text.replace(old, line.removeprefix("new:").removeprefix(" "))
            old = None
    return None if texts else "changes nothing"


def check():
    """Returns what is wrong with the edits, a line each."""
    wrong = []
    for edit in sorted(EDITS.glob("*/*")):
        crate = TOP / "crates" / edit.parent.name
        if edit.suffix != ".edit" or not crate.is_dir():
            wrong.append(f"{edit.relative_to(TOP)}: no edit of a crate")
        elif (crate / "must-fail" / edit.name).exists():
            wrong.append(f"{edit.relative_to(TOP)}: the gate has one of that name")
        elif fault := fault_of(edit, crate):
            wrong.append(f"{edit.relative_to(TOP)}: {fault}")
    for folder in sorted(TOP.glob("crates/*/must-fail")):
        if (many := sum(1 for _ in folder.glob("*.edit"))) > MOST:
            wrong.append(f"{folder.relative_to(TOP)}: {many} edits, where the gate tries {MOST} a crate")
    return wrong


class Sums:
    """Checksums of all that the try of an edit reads."""

    def __init__(self):
        self.uses, self.known = crates(), {}
        self.kit = subprocess.run(["rt", "version"], capture_output=True, check=True).stdout

    def of_crate(self, crate):
        if crate not in self.known:
            lines = [line for line in (TOP / "crates.txt").read_text().splitlines() if re.match(rf"{crate}\b", line)]
            sum = hashlib.sha256(repr((self.kit, (TOP / "HANDLES").read_bytes(), lines)).encode())
            for part in ("src", "specs", "proofs"):
                for file in sorted((TOP / "crates" / crate / part).rglob("*")):
                    if file.is_file():
                        sum.update(repr((str(file.relative_to(TOP)), file.read_bytes())).encode())
            sum.update(repr([self.of_crate(it) for it in self.uses[crate]]).encode())
            self.known[crate] = sum.hexdigest()
        return self.known[crate]

    def of_edit(self, edit):
        return hashlib.sha256(repr((self.of_crate(edit.parent.name), edit.read_bytes())).encode()).hexdigest()


def name_of(edit):
    return f"{edit.parent.name}/{edit.stem}"


def tried_before():
    """What was refused, by an edit's name: the checksum, the commit and what rt said."""
    try:
        return json.loads(TRIED.read_text())
    except (OSError, ValueError):
        return {}


def left(edits, tried, sums):
    """The edits that weren't refused as they stand."""
    return [edit for edit in edits if tried.get(name_of(edit), {}).get("sum") != sums.of_edit(edit)]


def commit():
    """The commit that stands here, with a word where files were changed since."""

    def git(*words):
        return subprocess.run(["git", *words], cwd=TOP, capture_output=True, text=True).stdout.strip()

    return git("rev-parse", "--short", "HEAD") + (" with changes" if git("status", "--porcelain") else "")


def copy_repository(crate, edits):
    """Makes a copy of the crates in which these edits are the crate's, with what was built by links."""
    shutil.rmtree(COPY, ignore_errors=True)
    COPY.mkdir(parents=True)
    # rt all passes over a folder with this file.
    (COPY / "MODULE.bazel").touch()
    subprocess.run(["cp", "-al", *(TOP / it for it in ("crates", "crates.txt", "HANDLES")), COPY], check=True)
    folder = COPY / "crates" / crate / "must-fail"
    shutil.rmtree(folder, ignore_errors=True)
    folder.mkdir()
    for edit in edits:
        shutil.copy(edit, folder)


def try_edits(crate, edits, tried, sums):
    """Tries these edits of the crate, notes which were refused, and returns whether all were."""
    read = {name_of(edit): sums.of_edit(edit) for edit in edits}
    at, refused = commit(), 0
    copy_repository(crate, edits)
    with subprocess.Popen(["rt", "must-fail", crate], cwd=COPY, stdout=subprocess.PIPE, text=True) as process:
        for line in process.stdout:
            print(line, end="", flush=True)
            said = re.match(rf"rt: must-fail {crate}/(\S+)\.edit: (refused, .*)", line)
            if said and f"{crate}/{said[1]}" in read:
                refused += 1
                tried[f"{crate}/{said[1]}"] = {"sum": read[f"{crate}/{said[1]}"], "commit": at, "said": said[2]}
    new = OUT / "tried.new"
    new.write_text(json.dumps(tried, indent=1, sort_keys=True) + "\n")
    os.replace(new, TRIED)
    return process.returncode == 0 and refused == len(edits)


def tell(tried, sums):
    """Says which edits weren't tried as they stand, and since which commit."""
    whole = 0
    for crate in sums.uses:
        untried = left(sorted((EDITS / crate).glob("*.edit")), tried, sums)
        since = [tried[name]["commit"] if (name := name_of(edit)) in tried else None for edit in untried]
        whole += len(untried)
        for one in dict.fromkeys(since):
            print(f"not tried: {since.count(one)} of {crate}, " + (f"since {one}" if one else "never here"))
    print(f"{sum(1 for _ in EDITS.glob('*/*.edit'))} edits beside the gate, {whole} not tried as they stand")


def main():
    known = [crate for crate in crates() if (EDITS / crate).is_dir()]
    words = sys.argv[1:]
    if any(word not in known for word in words) and words not in (["--check"], ["--status"]):
        sys.exit(__doc__)
    wrong = check()
    print(*wrong, sep="\n", end="\n" if wrong else "")
    if wrong or words == ["--check"]:
        print(f"{sum(1 for _ in EDITS.glob('*/*.edit'))} edits beside the gate, {len(wrong)} faults")
        sys.exit(1 if wrong else 0)
    tried, sums, failed = tried_before(), Sums(), []
    signal.signal(signal.SIGTERM, lambda *_: sys.exit(1))
    try:
        for crate in [] if words == ["--status"] else words or known:
            edits = sorted((EDITS / crate).glob("*.edit"))
            new = left(edits, tried, sums)
            print(f"{crate}: {len(edits) - len(new)} of its {len(edits)} edits were refused as they stand, trying {len(new)}", flush=True)
            if new and not try_edits(crate, new, tried, sums):
                failed.append(crate)
    except KeyboardInterrupt:
        failed.append("interrupted")
    finally:
        shutil.rmtree(COPY, ignore_errors=True)
    tell(tried, sums)
    sys.exit(f"not all were refused: {' '.join(failed)}" if failed else 0)


main()
