"""Where the program is that tools start."""

import shutil
import sys
from pathlib import Path

TOP = Path(__file__).resolve().parent.parent.parent


def find_ebpf(tool, asked):
    """Returns the program's path: the one that is asked for, the repository's own, or the one in PATH."""
    own = TOP / "ebpf"
    found = asked or (str(own) if own.is_file() else shutil.which("ebpf"))
    if not found:
        sys.exit(f"{tool}: `ebpf`, which it debugs with, isn't there: `make`, or --ebpf PATH")
    return str(Path(found).resolve())
