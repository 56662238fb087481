"""How many instructions the gets or opens of a workload take, by callgrind: the same in every run."""

import re
import subprocess
from pathlib import Path
from typing import Dict, List

VALGRIND = "valgrind"
COUNT = [VALGRIND, "--tool=callgrind", "--callgrind-out-file=/dev/null"]
COUNTED = re.compile(r"Collected : ([0-9]+)")


def counted(command: List[str], folder: Path) -> int:
    """How many instructions a command takes."""
    done = subprocess.run(COUNT + command, cwd=folder, capture_output=True, text=True, check=True)
    found = COUNTED.search(done.stderr)
    if not found:
        raise ValueError(f"{VALGRIND} told no count: {done.stderr.strip()}")
    return int(found[1])


def of_questions(command: List[str], folder: Path, questions: int) -> Dict[str, object]:
    """What this count of questions takes: the command with one more than these, less the command with one."""
    most, least = (counted(command + [f"q={count}"], folder) for count in (questions + 1, 1))
    return {"count": questions, "instructions": most - least}
