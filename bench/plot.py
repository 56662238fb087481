#!/usr/bin/env python3
"""Draws the plots of a file of measurements as SVG, and a page with a sentence for each."""

import argparse
import sys
import textwrap
from pathlib import Path
from typing import Dict, List, Tuple

import growth
import ratios
import scaling
import volume
from drawing import Drawing
from figures import EVEN, Figures, label_of
from pictures import PICTURES
from plan import C_SIDES
from texts import in_sentence, listed, time_text

HERE = Path(__file__).resolve().parent

Plot = Tuple[str, Drawing]

#: name, title and subject of the plots of ratios
RATIOS = [
    ("ratios-reading", "Reading without opening, by length", "A read by `zevk_get`, which opens nothing,",
     ratios.UNOPENED_PANELS),
    ("ratios-opened", "Reading an opened store, by length", "A read by `zevk_locate`, from an opened store,",
     ratios.OPENED_PANELS),
    ("ratios-other", "Opening, cold gets, threads, writing", "Opening, a cold get, a get of threads or writing",
     ratios.OTHER_PANELS),
    ("ratios-outside", "Beside tantivy's own code", "Work by the reader and the writer in Rattle",
     ratios.OUTSIDE_PANELS),
]


def shares_of(figures: Figures) -> List[float]:
    """How wide the interval of each row's median is, as shares of the median: the least first."""
    return sorted(figures.share_of(row) for row in figures.rows if len(row["rounds"]) > 1)


def spread_sentence(figures: Figures) -> str:
    """How far the rounds of a row lie apart."""
    shares = shares_of(figures)
    wide = sum(share > EVEN for share in shares)
    again = sum(bool(row["again"]) for row in figures.rows)
    return (f"In the median row the interval is {shares[len(shares) // 2]:.0%} of the median wide; in {wide} of "
            f"{len(shares)} rows more than {EVEN:.0%}; {again} rows were measured again.")


def _ratio_plots(figures: Figures) -> Dict[str, Drawing]:
    plots = {}
    for name, title, subject, panels in RATIOS:
        if ratios.ratios_of(figures, panels):
            plots[name] = ratios.draw(figures, panels, title, ratios.sentence(figures, subject, panels))
    return plots


def _of_growth(figures: Figures, workload: str, side: str, blocks: int) -> str:
    spread = figures.spread(group="growth", workload=workload, side=side, documents=blocks)
    return "" if spread is None else in_sentence(spread, time_text)


def growth_sentence(figures: Figures) -> str:
    """From the fewest blocks to the most."""
    blocks = sorted({row["documents"] for row in figures.find(group="growth")})
    if not blocks:
        return "How gets, opens and memory grow with the number of blocks."
    few, many = blocks[0], blocks[-1]

    def goes(workload: str, side: str) -> str:
        ends = [_of_growth(figures, workload, side, count) for count in (few, many)]
        return f"from {ends[0]} to {ends[1]}"

    kept = dict(growth.memory(figures)["zevk"])[many] / many
    return (f"From {few} to {many} blocks a get goes {goes('uniform', 'zevk')} by `zevk_locate` and "
            f"{goes('uniform', 'unopened')} by `zevk_get`, and an open with all checks {goes('open', 'zevk')}, where "
            f"LMDB takes {_of_growth(figures, 'open', 'lmdb', many)} for the last; at {many} blocks an opened store "
            f"keeps {kept:.0f} bytes a block.")


def volume_sentence(figures: Figures) -> str:
    parts = []
    for length in figures.lengths(group="size"):
        taken = volume.excess(figures, length)
        if "zevk" in taken:
            less = [label_of(side) for side in taken if taken[side] < taken["zevk"]]
            parts.append(f"{taken['zevk']:.1f} bytes for {length}" + (f" (less: {listed(less)})" if less else ""))
    return f"Beyond a document's own bytes our file takes {listed(parts)}."


def _other_plots(figures: Figures) -> Dict[str, Drawing]:
    told = [("growth", "growth", "Growth with the number of blocks", growth_sentence, growth.draw),
            ("volume", "size", "Bytes on disk", volume_sentence, volume.draw)]
    return {name: draw(figures, title, says(figures))
            for name, group, title, says, draw in told if figures.find(group=group)}


def plots_of(figures: Figures, scaling_file: Path) -> List[Plot]:
    """All plots for which there are figures, in the order of the pages."""
    made = {name: draw(figures, title, says(figures)) for name, title, says, draw in PICTURES}
    made.update(_ratio_plots(figures))
    made.update(_other_plots(figures))
    made["scaling"] = scaling.draw(scaling_file)
    return [(name, drawing) for name, drawing in made.items() if drawing]


def machine_sentence(figures: Figures) -> str:
    """The one machine of all figures, with the kit and the versions of the libraries."""
    whole = figures.whole
    machine, versions = whole["machine"], whole["versions"]
    known = ", ".join(f"{label_of(name)} {versions[name]}" for name in [*C_SIDES, "py_lmdb", "py_gnu", "shell_sqlite"]
                      if versions.get(name))
    return (f"All figures are of one machine: {machine['processor']}, {machine['cores']} cores, "
            f"{machine['memory_bytes'] / 2**30:.0f} GiB of memory, {machine['system']}, kernel {machine['kernel']}; "
            f"the kit {' '.join(versions['kit'].split()[:1])}, {versions['compiler']}; {known}.")


def _moment(told: Dict[str, object]) -> str:
    """When and at which revision something was measured, and how many processes wanted a core."""
    before, after = told["before"], told["after"]
    return (f"on {before['time'][:10]} from {before['time'][11:16]} to {after['time'][11:16]} UTC at revision "
            f"{told['revision']}, with a load of {before['load'][0]} before and {after['load'][0]} after")


def _span(numbers: List[int]) -> str:
    return str(numbers[0]) if len(numbers) == 1 else f"{numbers[0]} to {numbers[-1]}"


def moment_sentence(figures: Figures) -> str:
    """When all of it was measured; rows that an earlier run measured are named."""
    whole = figures.whole
    text = (f"Measured {_moment({**whole, 'revision': whole['versions']['revision']})}; medians of {whole['rounds']} "
            "rounds.")
    for told in whole.get("earlier", []):
        rounds = sorted({len(row["rounds"]) for row in figures.rows if row["group"] in told["groups"]})
        text += f" Rows of the group {listed(told['groups'])}: {_moment(told)}; {_span(rounds)} rounds."
    return text


def rough_sentence(figures: Figures, group: str) -> str:
    """When the rows of a group were measured, and what makes them rough."""
    whole = figures.whole
    told = next((told for told in whole.get("earlier", []) if group in told["groups"]), None)
    told = told or {**whole, "revision": whole["versions"]["revision"]}
    causes = []
    if str(told["revision"]).endswith("-dirty"):
        causes.append("the sources had changes that no revision has")
    if told["before"]["load"][0] > whole["machine"]["cores"]:
        causes.append("other programs had work for all cores")
    rough = f" Take these figures as rough: {listed(causes)}." if causes else ""
    return f"Measured {_moment(told)}.{rough}"


def page_of(figures: Figures, plots: List[Plot]) -> str:
    """The page that shows the plots, with what they were measured on."""
    lines = ["# Plots", "", "`bench/plot.py` draws them and writes this page. Ratios are our time by theirs: above 1",
             "ours is slower. *About* marks a figure that the rounds don't tell within 15 %.", ""]
    for name, drawing in plots:
        lines += [f"## {drawing.title}", "", *wrapped(drawing.says), "", f"![{drawing.title}]({name}.svg)", ""]
    lines += ["## Measured on", "", *wrapped(f"{machine_sentence(figures)} {moment_sentence(figures)}"), ""]
    if figures.whole["quick"]:
        lines += ["Small sizes, to see that all is right: no figures to publish.", ""]
    return "\n".join(lines)


def wrapped(text: str) -> List[str]:
    return textwrap.wrap(text, 120, break_long_words=False, break_on_hyphens=False)


def files_of(figures: Figures, scaling_file: Path) -> Dict[str, str]:
    """What the folder of plots has: a drawing for each, and the page."""
    plots = plots_of(figures, scaling_file)
    files = {f"{name}.svg": drawing.svg() for name, drawing in plots}
    return {**files, "README.md": page_of(figures, plots)}


def differing(folder: Path, files: Dict[str, str]) -> List[str]:
    """The files of the folder that are not these."""
    there = {path.name: path.read_text() for path in folder.iterdir()}
    return sorted(name for name in {*there, *files} if there.get(name) != files.get(name))


def main() -> int:
    parser = argparse.ArgumentParser(description=__doc__)
    parser.add_argument("measurements", nargs="?", type=Path, default=HERE / "measurements.json")
    parser.add_argument("--scaling", type=Path, default=HERE / "scaling.json",
                        help="what examples/dask/distribute.py --scale wrote, if it is there")
    parser.add_argument("--output", type=Path, default=HERE.parent / "docs" / "plots")
    parser.add_argument("--check", action="store_true", help="write nothing; fail if a plot has other figures")
    given = parser.parse_args()
    figures = Figures(given.measurements)
    if figures.whole["quick"]:
        print("plot.py: measured with --quick: no figures to publish", file=sys.stderr)
    files = files_of(figures, given.scaling)
    if given.check:
        differ = differing(given.output, files)
        for name in differ:
            print(f"{name}: not the plot of {given.measurements.name}", file=sys.stderr)
        return 1 if differ else 0
    given.output.mkdir(parents=True, exist_ok=True)
    for name in set(path.name for path in given.output.glob("*.svg")) - set(files):
        (given.output / name).unlink()
    for name, text in files.items():
        (given.output / name).write_text(text)
    print(f"{given.output}: {len(files) - 1} plots", file=sys.stderr)
    return 0


if __name__ == "__main__":
    sys.exit(main())
