"""The benchmark's one command is run without a measurement; and what decides which rounds count."""

from __future__ import annotations

import json
import re
import shlex
import subprocess
import sys
import time
import unittest

from documents.pages import text_of
from harness import TOP, FolderCase

BENCH = TOP / "bench"
# After the folders of the tests, of which some have the names of scripts there.
sys.path.append(str(BENCH))

import front  # noqa: E402 (the path is set before)
import goals  # noqa: E402 (the same)
import measuring  # noqa: E402 (the same)
import plan  # noqa: E402 (the same)
import sides  # noqa: E402 (the same)
from figures import LABELS, Spread, outer_values, spread_of  # noqa: E402 (the same)
from texts import between, factor_text, in_sentence, in_table, two_digit_time  # noqa: E402 (the same)

COMMAND = re.compile(r"<!-- run by: tests/scripts/test_bench.py -->\n    (python3 bench/run\.py .*)\n")
EVEN, UNEVEN = [1.0, 1.01, 1.02, 1.03], [1.0, 2.0, 3.0, 4.0]


def command() -> list[str]:
    """The words of the command that measures all, without the program's."""
    return shlex.split(COMMAND.findall(text_of(BENCH / "README.md"))[0])[1:]


class Command(unittest.TestCase):
    def test_the_command_that_measures_all_measures_each_group(self):
        done = subprocess.run([sys.executable, *command(), "--dry-run"], cwd=TOP, capture_output=True, text=True)
        self.assertEqual((done.returncode, done.stderr), (0, ""))
        rows = dict(re.findall(r"^(\w+): (\d+) rows, of ", done.stdout, re.M))
        self.assertEqual(list(rows), plan.GROUPS)
        self.assertIn("tantivy", done.stdout)
        self.assertEqual(f"{sum(map(int, rows.values()))} rows", done.stdout.splitlines()[-1])

    def test_a_dry_run_makes_nothing(self):
        before = sorted(BENCH.iterdir())
        subprocess.run([sys.executable, *command(), "--dry-run"], cwd=TOP, capture_output=True, check=True)
        self.assertEqual(sorted(BENCH.iterdir()), before)

    def test_small_sizes_write_no_documents(self):
        words = [sys.executable, BENCH / "run.py", "--quick", "--documents", "--dry-run"]
        self.assertEqual(subprocess.run(words, capture_output=True).returncode, 2)


class Adding(unittest.TestCase):
    """Groups that are measured into a file that has others."""

    def file(self, revision: str, *groups: str) -> dict[str, object]:
        return {"before": f"{revision} before", "after": f"{revision} after", "versions": {"revision": revision},
                "rounds": 9, "rows": [{"group": group, "of": revision} for group in groups]}

    def test_the_other_groups_stay_and_each_says_when_it_was_measured(self):
        first = measuring.added_to(self.file("one", "read", "program", "log"), self.file("two", "program", "log"))
        both = measuring.added_to(first, self.file("three", "log"))
        self.assertEqual([(row["group"], row["of"]) for row in both["rows"]],
                         [("read", "one"), ("program", "two"), ("log", "three")])
        self.assertEqual(both["versions"], {"revision": "one"})
        self.assertEqual([(told["groups"], told["revision"]) for told in both["earlier"]],
                         [(["program"], "two"), (["log"], "three")])


class SameWork(FolderCase):
    """Sides that are no part of `crates/bench_store` get its documents, by the checks that it has to print."""

    def checks(self) -> dict[str, str]:
        return dict(line.split() for line in text_of(TOP / "crates/bench_store/stdout").splitlines())

    def test_python_asks_for_the_same_documents(self):
        store = self.folder / "store"
        for workload, wanted in (
            ("write", "iter_raw/n=5000/l=100/bs=16384/cap=100"),
            ("uniform", "get_uniform/n=5000/l=100/bs=16384/cap=100/q=2000"),
            ("iterate", "iter_raw/n=5000/l=100/bs=16384/cap=100"),
        ):
            with self.subTest(workload):
                words = [sys.executable, BENCH / "from_python.py", "py_offsets", workload, store, "n=5000", "q=2000"]
                done = subprocess.run(words, capture_output=True, check=True)
                self.assertEqual(json.loads(done.stdout)["check"], self.checks()[wanted])

    def test_tantivy_is_asked_for_the_same_documents(self):
        program = BENCH / "out/tantivy"
        if not program.exists():
            self.skipTest("bench/outside/build.py made no program, since there is no source of tantivy")
        for name, check in self.checks().items():
            workload, *words = name.split("/")
            if workload in ("write", "get_uniform", "get_hot", "get_zipf", "get_seq", "iter_raw", "stack"):
                with self.subTest(name):
                    words.append("hot=500")  # as crates/bench_store/src/plans.rt has it
                    done = subprocess.run([program, workload, *words], capture_output=True, text=True, check=True)
                    self.assertEqual(done.stderr, f"# {workload} check={check}\n")


PARTS = """
import sys
from pathlib import Path
import pages
from figures import Figures
for name, made in pages.PARTS.items():
    print(name, "has no figures" if made(Figures(Path(sys.argv[1]))) == pages.MISSING else "is made")
"""


class Documents(FolderCase):
    """What is written into the documents of measurements that have all rows."""

    def setUp(self) -> None:
        super().setUp()
        taken = dict.fromkeys(("file_bytes", "own_bytes", "peak_bytes", "reads", "read_bytes", "open_reads",
                               "open_read_bytes"), 5000)
        rows = plan.rows_of(plan.GROUPS, plan.FULL, ["tantivy"])
        whole = json.loads(text_of(BENCH / "measurements.json"))
        rounds = [[{"count": 1, "ns": 100 + at + turn, **taken} for turn in range(9)] for at in range(7)]
        whole["rows"] = [{**row.told(), "again": 0, "rounds": rounds[at % 7]} for at, row in enumerate(rows)]
        self.measurements = self.folder / "measurements.json"
        self.measurements.write_text(json.dumps(whole))

    def test_each_part_of_the_pages_is_made(self):
        words = [sys.executable, "-c", PARTS, self.measurements]
        done = subprocess.run(words, cwd=BENCH, capture_output=True, text=True)
        self.assertEqual((done.returncode, done.stderr), (0, ""))
        self.assertEqual([line for line in done.stdout.splitlines() if not line.endswith("is made")], [])

    def test_each_plot_is_drawn(self):
        words = [sys.executable, BENCH / "plot.py", self.measurements, "--output", self.folder / "plots"]
        subprocess.run(words, capture_output=True, check=True)
        drawn = {path.stem for path in (self.folder / "plots").glob("*.svg")}
        self.assertEqual(drawn, {
            "reading", "slower", "opening", "appending", "python", "ratios-reading", "ratios-opened", "ratios-other",
            "ratios-outside", "growth", "volume", "scaling",
        })


class Plan(unittest.TestCase):
    def rows(self) -> list[plan.Row]:
        return plan.rows_of(plan.GROUPS, plan.FULL, ["tantivy"])

    def test_no_row_is_measured_twice(self):
        rows = self.rows()
        self.assertEqual(len(rows), len(set(rows)))

    def test_each_side_has_a_name_for_tables_and_plots(self):
        self.assertEqual({row.side for row in self.rows()} - set(LABELS), {"tantivy"})

    def test_small_sizes_have_all_works(self):
        def works(sizes: plan.Sizes) -> set:
            return {(row.group, row.workload, row.side, row.place) for row in plan.rows_of(plan.GROUPS, sizes, [])}

        self.assertEqual(works(plan.QUICK), works(plan.FULL))

    def test_each_batch_of_a_log_is_done_by_ours_and_by_each_library(self):
        sides_of: dict[tuple, set[str]] = {}
        for row in self.rows():
            if row.workload == "log_append" and row.group == "log":
                sides_of.setdefault((row.place, row.questions), set()).add(row.side)
        batches = {(place, batch) for place in (plan.MEMORY, plan.DISK) for batch in (1, 100, 10_000)}
        self.assertEqual(set(sides_of), batches)
        self.assertEqual(set(map(frozenset, sides_of.values())), {frozenset({"log", "lmdb", "sqlite", "rocksdb"})})

    def test_no_two_batches_of_a_log_are_compared_with_each_other(self):
        for sizes in (plan.QUICK, plan.FULL):
            batches = {(row.place, row.questions, row.compared()) for row in plan.log_rows(sizes)}
            self.assertEqual(len({compared for *_, compared in batches}), len(batches))

    def test_a_long_log_is_opened_and_read_by_ours_and_by_each_library(self):
        for workload in plan.LOG_READS:
            rows = [row for row in self.rows() if row.workload == workload]
            self.assertEqual([row.side for row in rows], ["log", "lmdb", "sqlite", "rocksdb"])

    def test_growth_goes_to_ten_million_blocks(self):
        self.assertEqual(max(row.documents for row in self.rows() if row.group == "growth"), 10**7)


class Figures(unittest.TestCase):
    def test_a_figure_whose_rounds_lie_far_apart_says_so(self):
        self.assertEqual(in_table(spread_of(UNEVEN), factor_text), "2.50 [1.00, 4.00]")
        self.assertEqual(in_sentence(spread_of(UNEVEN), factor_text), "about 2.50")

    def test_the_interval_of_a_median_has_it_in_nineteen_of_twenty_cases(self):
        # As tables of the sign test have it.
        for count, outer in ((1, 0), (5, 0), (6, 0), (8, 0), (9, 1), (11, 1), (12, 2), (18, 4), (27, 7)):
            self.assertEqual(outer_values(count), outer)
        self.assertEqual(spread_of([float(value) for value in (9, 1, 8, 2, 7, 3, 6, 4, 5)]), (2.0, 5.0, 8.0))

    def test_a_goal_is_met_or_missed_only_if_the_interval_tells(self):
        for low, high, told in ((0.5, 0.62, "met"), (0.5, 0.7, "open"), (0.64, 0.7, "missed")):
            self.assertEqual(goals.verdict(Spread(low, 0.6, high), 0.6), told)
        self.assertEqual(goals.verdict(None, 0.6), "not measured")
        self.assertEqual(between([spread_of(EVEN), spread_of(UNEVEN)], factor_text), "about 1.02 to 2.50")

    def test_a_figure_whose_rounds_lie_close_is_alone(self):
        self.assertEqual(in_table(spread_of(EVEN), factor_text), "1.02")
        self.assertEqual(between([spread_of(EVEN)] * 2, factor_text), "1.02")

    def test_the_first_page_has_two_digits_and_the_least_of_a_row_is_bold(self):
        for value, text in ((61.4, "61 ns"), (8.04, "8.0 ns"), (995, "1.0 µs"), (1493, "1.5 µs"), (1.768e8, "180 ms")):
            self.assertEqual(two_digit_time(value), text)
        values = [12_549.0, None, 13_300.0, 247_900.0]
        texts = ["" if value is None else two_digit_time(value) for value in values]
        self.assertEqual(front.row_of("open", values, texts), "| open | **13 µs** |  | **13 µs** | 250 µs |")


class Rounds(unittest.TestCase):
    """Which rounds count, with sides that take what a test says."""

    def setUp(self) -> None:
        self.taken: list[plan.Row] = []
        self.nanoseconds = iter(lambda: 100, None)
        self.check = "1"
        self.replace(sides, "run", self.run_side)
        self.replace(measuring, "say", lambda text: None)
        self.rows = [plan.Row("read", "uniform", plan.DISK, side, 10, 8) for side in ("zevk", "lmdb")]
        self.measured = measuring.Measurements()

    def replace(self, module: object, name: str, other: object) -> None:
        """Sets a name of a module for one test."""
        self.addCleanup(setattr, module, name, getattr(module, name))
        setattr(module, name, other)

    def run_side(self, programs: object, row: plan.Row) -> dict[str, object]:
        self.taken.append(row)
        return {"count": 1, "ns": next(self.nanoseconds), "check": self.check}

    def pace(self, minutes: float | None) -> measuring.Pace:
        return measuring.Pace.of(5, 2, minutes)

    def test_all_sides_are_taken_in_turn(self):
        rounds = measuring.take_all(None, self.measured, self.rows, self.pace(None))
        self.assertEqual(rounds, 5)
        turns = [self.taken[at:at + 2] for at in range(0, 10, 2)]
        self.assertEqual([set(turn) for turn in turns], [set(self.rows)] * 5)
        self.assertGreater(len({tuple(turn) for turn in turns}), 1, "the order is the same in every round")

    def test_the_sides_of_a_work_stay_together(self):
        rows = [plan.Row("read", order, plan.DISK, side, 10, 8) for order in plan.ORDERS for side in "abc"]
        for turn in range(5):
            works = [row.workload for row in measuring.shuffled(rows, turn)]
            self.assertEqual([len(set(works[at:at + 3])) for at in range(0, 12, 3)], [1] * 4)

    def test_a_run_whose_time_is_over_has_three_rounds(self):
        rounds = measuring.take_all(None, self.measured, self.rows, self.pace(0))
        self.assertEqual((rounds, len(self.taken)), (3, 6))

    def test_an_uneven_work_gets_more_rounds_and_all_of_them_count(self):
        self.nanoseconds = iter([100, 100, 900, 100, 100, 100, 900, 100] + [200] * 100)
        measuring.take_all(None, self.measured, self.rows, measuring.Pace(4, 2, None))
        measuring.even_out(None, self.measured, 4, self.pace(None))
        self.assertEqual([len(rounds) for rounds in self.measured.rounds.values()], [12, 12])
        self.assertEqual(list(self.measured.again.values()), [2, 2])

    def test_no_work_is_measured_again_after_the_time(self):
        self.nanoseconds = iter([100, 900] * 100)
        measuring.take_all(None, self.measured, self.rows[:1], measuring.Pace(4, 2, None))
        measuring.even_out(None, self.measured, 4, measuring.Pace(4, 2, time.monotonic() - 1))
        self.assertEqual((len(self.taken), self.measured.again), (4, {}))

    def test_a_side_that_did_other_work_ends_the_run(self):
        self.measured.take(None, self.rows[0])
        self.check = "2"
        with self.assertRaises(sides.Failed):
            self.measured.take(None, self.rows[1])
