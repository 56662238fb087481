"""What the figures were measured on, and with which versions."""

import datetime
import os
import platform
import re
import subprocess
from pathlib import Path
from typing import Dict, List, Optional

#: the distribution's packages that are compared with
PACKAGES = {
    "lmdb": "liblmdb-dev",
    "sqlite": "libsqlite3-dev",
    "leveldb": "libleveldb-dev",
    "rocksdb": "librocksdb-dev",
    "cdb": "libcdb-dev",
    "py_lmdb": "python3-lmdb",
    "py_gnu": "python3-gdbm",
    "shell_sqlite": "sqlite3",
}


def _first_match(path: str, pattern: str) -> Optional[str]:
    try:
        found = re.search(pattern, Path(path).read_text(), re.MULTILINE)
    except OSError:
        return None
    return found.group(1).strip() if found else None


def _first_line(command: List[str]) -> Optional[str]:
    try:
        answer = subprocess.run(command, capture_output=True, text=True, check=True)
    except (OSError, subprocess.CalledProcessError):
        return None
    return answer.stdout.splitlines()[0] if answer.stdout else None


def machine() -> Dict[str, object]:
    """The processor, how many cores of it are ours, memory in bytes, and the system."""
    return {
        "processor": _first_match("/proc/cpuinfo", r"^model name\s*:(.*)$") or platform.machine(),
        "architecture": platform.machine(),
        "cores": len(os.sched_getaffinity(0)),
        "memory_bytes": os.sysconf("SC_PAGE_SIZE") * os.sysconf("SC_PHYS_PAGES"),
        "kernel": platform.release(),
        "system": _first_match("/etc/os-release", r'^PRETTY_NAME="(.*)"$') or platform.system(),
    }


def versions(python: Path) -> Dict[str, Optional[str]]:
    """The versions of libraries and compilers, and of the Python that has the package; none where nobody says."""
    told = {
        name: _first_line(["dpkg-query", "--show", "--showformat=${Version}", package])
        for name, package in PACKAGES.items()
    }
    told["compiler"] = _first_line([os.environ.get("CC", "cc"), "--version"])
    told["kit"] = _first_line(["rt", "version"])
    told["cargo"] = _first_line(["cargo", "--version"])
    told["python"] = _first_line([str(python), "--version"])
    told["revision"] = _first_line(["git", "-C", str(Path(__file__).parent), "describe", "--always", "--dirty"])
    return told


def load() -> Dict[str, object]:
    """The moment, and how many processes wanted a core in the last one, five and fifteen minutes."""
    now = datetime.datetime.now(datetime.timezone.utc)
    return {"time": now.isoformat(timespec="seconds"), "load": [round(mean, 2) for mean in os.getloadavg()]}
