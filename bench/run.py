#!/usr/bin/env python3
"""Builds all sides, runs them in turn, and writes one file of measurements.

The sides, what is measured and by which rules: README.md. The plots of such a file: plot.py.
"""

import argparse
import json
import subprocess
import sys
import tempfile
from pathlib import Path
from typing import Dict, List, Tuple

import building
import machine
import sides
from inputs import SEEDS
from measuring import Measurements, Pace, added_to, measure
from plan import FULL, GROUPS, QUICK, Row, rows_of

HERE = Path(__file__).resolve().parent


def arguments() -> argparse.Namespace:
    parser = argparse.ArgumentParser(description=__doc__.splitlines()[0])
    parser.add_argument("--rounds", type=int, default=9, help="how often each workload of each side is done")
    parser.add_argument("--again", type=int, default=2,
                        help="how often a work has as many rounds more while the median of one of its rows is not told "
                             "within 15 %%")
    parser.add_argument("--minutes", type=float, help="no round begins later, and no work is measured again")
    parser.add_argument("--quick", action="store_true", help="small sizes, to see that all is right: no figures")
    parser.add_argument("--documents", action="store_true", help="then write the plots and the pages of the documents")
    parser.add_argument("--dry-run", action="store_true", help="print what would be measured, and build nothing")
    parser.add_argument("--only", default=",".join(GROUPS), help="groups: " + ",".join(GROUPS))
    parser.add_argument("--sides", default="", help="these sides alone, as lmdb,zevk")
    parser.add_argument("--directory", type=Path, default=building.OUT, help="a folder on a disk, for files")
    parser.add_argument("--memory", type=Path, default=Path("/dev/shm"), help="a folder in memory, for files")
    parser.add_argument("--output", type=Path, default=HERE / "measurements.json")
    parser.add_argument("--add", action="store_true",
                        help="keep the rows that the output file has of other groups, and say when each was measured")
    parser.add_argument("--outside", action="append", default=[], metavar="NAME=PROGRAM",
                        help="a side that is built elsewhere and takes the words of crates/bench_store")
    parser.add_argument("--no-build", action="store_true", help="take what was built before")
    given = parser.parse_args()
    unknown = set(given.only.split(",")) - set(GROUPS)
    if unknown:
        parser.error("no such group: " + ", ".join(sorted(unknown)))
    if given.rounds < 1:
        parser.error("at least one round")
    if given.quick and given.documents:
        parser.error("--quick has no figures for the documents")
    if given.add and not given.output.is_file():
        parser.error(f"--add: there is no {given.output}")
    return given


def outside_of(given: argparse.Namespace) -> Dict[str, Path]:
    """The sides that are built elsewhere, each with its program."""
    return {name: Path(path).resolve() for name, path in (word.split("=", 1) for word in given.outside)}


def rows_for(given: argparse.Namespace) -> List[Row]:
    """The rows of the groups and sides that are asked for."""
    rows = rows_of(given.only.split(","), QUICK if given.quick else FULL, list(outside_of(given)))
    chosen = given.sides.split(",") if given.sides else []
    return [row for row in rows if not chosen or row.side in chosen]


def programs_of(given: argparse.Namespace, disk: Path, memory: Path) -> sides.Programs:
    return sides.Programs(
        peers=building.PEERS,
        bench_store=building.BENCH_STORE,
        python=building.PYTHON,
        rust=building.RUST,
        program=building.PROGRAM,
        disk=disk,
        memory=memory,
        outside=outside_of(given),
    )


def print_plan(rows: List[Row]) -> None:
    """A line for each group: how many rows, and whose."""
    for group in GROUPS:
        of_group = [row for row in rows if row.group == group]
        if of_group:
            print(f"{group}: {len(of_group)} rows, of {', '.join(dict.fromkeys(row.side for row in of_group))}")
    print(f"{len(rows)} rows")


def text_of(whole: Dict[str, object]) -> str:
    """The file of measurements, a line for each row."""
    head = {key: value for key, value in whole.items() if key != "rows"}
    rows = ",\n".join("  " + json.dumps(row) for row in whole["rows"])
    return json.dumps(head, indent=1)[:-2] + ',\n "rows": [\n' + rows + "\n ]\n}\n"


def measure_in_folders(given: argparse.Namespace, rows: List[Row]) -> Tuple[Measurements, int]:
    """Measures with files in folders of its own, which are removed at the end."""
    pace = Pace.of(given.rounds, given.again, given.minutes)
    with tempfile.TemporaryDirectory(dir=given.directory) as disk:
        with tempfile.TemporaryDirectory(dir=given.memory) as memory:
            return measure(programs_of(given, Path(disk), Path(memory)), rows, pace)


def write_documents(measurements: Path) -> None:
    """The plots of these measurements, and what the documents have from them."""
    for script in ("plot.py", "pages.py"):
        subprocess.run([sys.executable, str(HERE / script), str(measurements)], check=True)


def main() -> int:
    given = arguments()
    rows = rows_for(given)
    if given.dry_run:
        print_plan(rows)
        return 0
    absent = [str(program) for program in outside_of(given).values() if not program.is_file()]
    if absent:
        print(f"run.py: there is no {', '.join(absent)}", file=sys.stderr)
        return 1
    try:
        if not given.no_build:
            building.build({row.side for row in rows})
        rows = building.with_programs(rows)
        given.directory.mkdir(parents=True, exist_ok=True)
        before = machine.load()
        measured, rounds = measure_in_folders(given, rows)
    except (building.Failed, sides.Failed) as why:
        print(f"run.py: {why}", file=sys.stderr)
        return 1
    whole = {
        "quick": given.quick,
        "rounds": rounds,
        "seeds": SEEDS,
        "machine": machine.machine(),
        "versions": machine.versions(building.PYTHON),
        "before": before,
        "after": machine.load(),
        "rows": measured.rows(),
    }
    if given.add:
        whole = added_to(json.loads(given.output.read_text()), whole)
    given.output.write_text(text_of(whole))
    print(f"{given.output}: {len(whole['rows'])} rows", file=sys.stderr)
    if given.documents:
        write_documents(given.output)
    return 0


if __name__ == "__main__":
    sys.exit(main())
