#!/usr/bin/env python3
"""Draws what melissa's result text says, as PNG files. Needs NumPy and Matplotlib.

    plot_result.py RESULT [--width W] [--out FOLDER] [--step T] [--cell X] [--bins TEXT] [--study STUDY]
    plot_result.py --self-test

For each field that the result has:

    indices   first-order and total index of each parameter over the cells, at one step
    steps     the first-order indices of one cell stacked over the steps, and its total indices; the rest up to 1 is
              interactions and the noise of few groups
    mean      mean and standard deviation over the cells
    extrema   least and greatest sample over the cells
    exceed    share of the samples above each threshold
    quartiles the brackets that hold the quartiles, from a bins text

Over the cells are curves, or maps where --width gives the number of cells in a row of the mesh. A mesh of one cell is
drawn over the steps. The result doesn't tell the thresholds: --study takes them from the study.
"""
import argparse
import pathlib
import sys
import tempfile
from dataclasses import dataclass

import matplotlib

matplotlib.use("Agg")

import numpy as np
from matplotlib import pyplot as plt
from matplotlib.ticker import MaxNLocator

import read_result

DOTS_PER_INCH = 110
WIDTH = 9  # of curves, in inches
COLOURS = ["#0072b2", "#e69f00", "#009e73", "#d55e00", "#cc79a7", "#56b4e9", "#555555"]  # told apart by all eyes
REST = "#dddddd"


def colour(k, number):
    """The colour of the k-th of so many things."""
    return COLOURS[k] if number <= len(COLOURS) else plt.get_cmap("tab20")(k % 20)


# What is drawn.


@dataclass
class View:
    """A field's arrays over the cells at a step, or over the steps where the mesh has one cell, with the names that
    Result and Bins have for them. width is that of a map, None for curves."""

    arrays: dict
    along: str
    width: int | None
    title: str
    names: list  # of the parameters
    thresholds: list  # their names

    def places(self):
        return np.arange(len(self.arrays["groups"]))


def kept(path, step, cell):
    """The Reader of a text, and for each field the arrays of this step and those of this cell over the steps. Of a
    step or cell that is None the last step and the middle cell are taken."""
    with read_result.opened(path) as (stream, name):
        reader = read_result.begin(stream, name, read_result.show_progress)
        if not isinstance(reader, read_result.Reader):
            raise read_result.FormError(name, 1, "a trial's summary has nothing to draw")
        step = reader.study.steps - 1 if step is None else step
        cell = reader.study.cells // 2 if cell is None else cell
        if not (0 <= step < reader.study.steps and 0 <= cell < reader.study.cells):
            raise ValueError(f"{name} has steps below {reader.study.steps} and cells below {reader.study.cells}")
        planes, series = {}, [[] for _ in range(reader.fields)]
        for plane in reader.planes():
            if plane.step == step:
                planes[plane.field] = plane.arrays
            series[plane.field].append({name: np.array(array[cell]) for name, array in plane.arrays.items()})
    over_steps = [{name: np.stack([one[name] for one in steps]) for name in steps[0]} for steps in series]
    return reader, step, cell, [planes[field] for field in range(reader.fields)], over_steps


def thresholds_of(path, number):
    """Names of so many thresholds, by their values where a study is given."""
    if path is None:
        return [f"threshold {k}" for k in range(number)]
    import tomllib  # of Python 3.11

    with open(path, "rb") as stream:
        values = tomllib.load(stream).get("thresholds", [])
    if len(values) != number:
        raise ValueError(f"{path} has {len(values)} thresholds, and the result {number}")
    return [f"above {value:,}" for value in values]


# How it is drawn.


def curves(view, rows=1, height=4.0):
    """A figure of so many panels one under another, over the cells or steps."""
    figure, axes = plt.subplots(rows, 1, sharex=True, squeeze=False, figsize=(WIDTH, height), layout="constrained")
    for axis in axes[:, 0]:
        axis.grid(alpha=0.3)
        axis.margins(x=0)
        axis.xaxis.set_major_locator(MaxNLocator(integer=True))
    axes[-1, 0].set_xlabel(view.along)
    figure.suptitle(view.title)
    return figure, list(axes[:, 0])


def mark(view):
    """The marker of curves: points alone are told from nothing."""
    return "o" if len(view.places()) < 30 else None


def legend(figure, axis):
    handles, labels = axis.get_legend_handles_labels()
    figure.legend(handles, labels, loc="center left", bbox_to_anchor=(1.0, 0.5), frameon=False)


def grid(values, width):
    """The values of the cells in rows of the mesh, NaN behind the last one."""
    rows = -(-len(values) // width)
    whole = np.full(rows * width, np.nan)
    whole[: len(values)] = values
    return whole.reshape(rows, width)


def maps(view, panels, columns, label, limits=None):
    """A figure with a map for each title and values. With limits all have these and one bar of colours."""
    height, width = grid(panels[0][1], view.width).shape
    rows, columns = -(-len(panels) // columns), min(columns, len(panels))
    across = max(1.0, min(10.0 / columns, 4.2, 6.0 * width / height))
    down = min(6.0, max(0.5, across * height / width))
    size = columns * (across if limits else across + 1.0) + 1.2, rows * (down + 0.35) + 0.8
    shared = {"sharex": True, "sharey": True, "squeeze": False}
    figure, axes = plt.subplots(rows, columns, figsize=size, layout="constrained", **shared)
    low, high = limits or (None, None)
    for axis, (title, values) in zip(axes.flat, panels):
        axis.set_facecolor(REST)  # shows where there is no number
        image = axis.imshow(grid(values, view.width), vmin=low, vmax=high, cmap="viridis", interpolation="nearest")
        axis.set_title(title, fontsize="medium")
        if not limits:
            figure.colorbar(image, ax=axis, label=label)
    if limits:
        figure.colorbar(image, ax=list(axes.flat), label=label)
    for axis in list(axes.flat)[len(panels) :]:
        axis.set_visible(False)
    figure.supxlabel("place in the row of cells", fontsize="medium")
    figure.supylabel("row", fontsize="medium")
    figure.suptitle(view.title)
    return figure


def draw_indices(view):
    first, total = view.arrays["first"], view.arrays["total"]
    if view.width:
        panels = []
        for k, name in enumerate(view.names):
            panels += [(f"{name}: first", first[:, k]), (f"{name}: total", total[:, k])]
        return maps(view, panels, 2 if len(panels) <= 6 else 4, "Sobol index", (0, 1))
    figure, axes = curves(view, 2, 5.5)
    draw_lines(axes[0], view, first, "first-order index")
    draw_lines(axes[1], view, total, "total index")
    legend(figure, axes[0])
    return figure


def draw_lines(axis, view, indices, label):
    """A line for each parameter, between lines at 0 and 1."""
    for end in (0, 1):
        axis.axhline(end, color="0.7", lw=0.8)
    for k, name in enumerate(view.names):
        axis.plot(view.places(), indices[:, k], label=name, color=colour(k, len(view.names)), marker=mark(view), ms=3)
    axis.set_ylabel(label)


def draw_steps(view):
    """The first-order indices of a cell, stacked, with the rest that they leave to interactions and noise, and its
    total indices."""
    first, number = view.arrays["first"], len(view.names)
    colours = [*(colour(k, number) for k in range(number)), REST]
    parts = np.where(first > 0, first, 0.0)  # NaN isn't above 0
    rest = np.where(parts.sum(axis=1) < 1, 1 - parts.sum(axis=1), 0.0)
    rest = np.where(np.isnan(first).all(axis=1), 0.0, rest)
    figure, axes = curves(view, 2, 6.0)
    layers = [parts[:, k] for k in range(number)] + [rest]
    axes[0].stackplot(view.places(), *layers, labels=[*view.names, "rest"], colors=colours)
    axes[0].set_ylabel("first-order indices")
    draw_lines(axes[1], view, view.arrays["total"], "total index")
    legend(figure, axes[0])
    return figure


def draw_mean(view):
    middle = read_result.mean(view.arrays["powers"], view.arrays["groups"])
    spread = np.sqrt(read_result.quotient(view.arrays["variance"]))
    if view.width:
        return maps(view, [("mean", middle), ("standard deviation", spread)], 2, "value of the samples")
    figure, (axis,) = curves(view)
    band = {"color": COLOURS[0], "alpha": 0.25, "lw": 0, "label": "± standard deviation"}
    axis.fill_between(view.places(), middle - spread, middle + spread, **band)
    axis.plot(view.places(), middle, color=COLOURS[0], label="mean", marker=mark(view), ms=3)
    axis.set_ylabel("value of the samples")
    legend(figure, axis)
    return figure


def draw_extrema(view):
    known = view.arrays["groups"] > 0
    least, greatest = (np.where(known, view.arrays["extrema"][:, end], np.nan) for end in (0, 1))
    if view.width:
        return maps(view, [("least", least), ("greatest", greatest)], 2, "value of the samples")
    figure, (axis,) = curves(view)
    axis.fill_between(view.places(), least, greatest, color=COLOURS[6], alpha=0.15, lw=0)
    axis.plot(view.places(), greatest, color=COLOURS[3], label="greatest", marker=mark(view), ms=3)
    axis.plot(view.places(), least, color=COLOURS[0], label="least", marker=mark(view), ms=3)
    axis.set_ylabel("value of the samples")
    legend(figure, axis)
    return figure


def draw_exceed(view):
    samples = np.where(view.arrays["groups"] > 0, 2.0 * view.arrays["groups"], np.nan)
    shares = [(name, view.arrays["exceed"][:, k] / samples) for k, name in enumerate(view.thresholds)]
    if view.width:
        return maps(view, shares, min(2, len(shares)), "share of the samples", (0, 1))
    figure, (axis,) = curves(view)
    for k, (name, share) in enumerate(shares):
        axis.plot(view.places(), share, label=name, color=colour(k, len(shares)), marker=mark(view), ms=3)
    axis.set_ylabel("share of the samples")
    axis.set_ylim(-0.02, 1.02)
    legend(figure, axis)
    return figure


def draw_quartiles(view):
    """Each bracket from its least value up to the one behind its greatest."""
    names = ["lower quartile", "median", "upper quartile"]
    known = (view.arrays["groups"] > 0).reshape(-1, 1)
    low, high = (np.where(known, view.arrays["quartiles"][:, :, end], np.nan) for end in (0, 1))
    if view.width:
        panels = [(name, (low[:, j] + high[:, j]) / 2) for j, name in enumerate(names)]
        limits = (np.nanmin(low), np.nanmax(high)) if known.any() else (0, 1)
        return maps(view, panels, 3, "middle of the bracket", limits)
    figure, (axis,) = curves(view)
    for j in (1, 0, 2):
        band = {"color": COLOURS[j], "alpha": 0.6, "lw": 0, "label": names[j]}
        axis.fill_between(view.places(), low[:, j], high[:, j] + 1, step="mid", **band)
    axis.set_ylabel("value of the samples")
    legend(figure, axis)
    return figure


DRAWN = {  # a picture, what draws it, and the array that it needs
    "indices": (draw_indices, "first"),
    "mean": (draw_mean, "powers"),
    "extrema": (draw_extrema, "extrema"),
    "exceed": (draw_exceed, "exceed"),
    "quartiles": (draw_quartiles, "quartiles"),
}


def save(figure, path):
    figure.savefig(path, dpi=DOTS_PER_INCH, bbox_inches="tight")
    plt.close(figure)
    print(path, flush=True)


def draw(path, options):
    """Draws all pictures of a text."""
    reader, step, cell, planes, over_steps = kept(path, options.step, options.cell)
    thresholds = planes[0]["exceed"].shape[-1] if "exceed" in planes[0] else 0
    names, thresholds = reader.parameter_names, thresholds_of(options.study, thresholds) if thresholds else []
    for field, field_name in enumerate(reader.field_names):
        start, end = (f"{field_name}, ", f"-{field_name}") if field_name else ("", "")
        steps = View(over_steps[field], "step", None, f"{start}cell {cell}", names, thresholds)
        view = View(planes[field], "cell", options.width, f"{start}step {step}", names, thresholds)
        if reader.study.cells == 1:
            view = steps
        for picture, (drawing, needed) in DRAWN.items():
            if needed in view.arrays:
                save(drawing(view), options.out / f"{picture}{end}.png")
        if reader.study.steps > 1 and "first" in steps.arrays:
            save(draw_steps(steps), options.out / f"steps{end}.png")


# The self-test.


def made_text(cells, steps, field_names):
    """A result whose numbers are made up."""
    fields = f" fields {len(field_names)}" if field_names else ""
    yield "melissa-result 1"
    yield f"study cells {cells} steps {steps} groups 9 parameters 2 ranks 1 clients 1{fields}"
    yield "rank 0 accepted 9 kept 0 replay 0 stale 0 repeated 0 foreign 0 0 0 0 0 0"
    for step in range(steps):
        for field in [f" field {name}" for name in field_names] or [""]:
            for cell in range(cells):
                some = cell != 2
                yield f"step {step}{field} cell {cell} groups {9 if some else 0}"
                yield from made_statistics(cell, step) if some else made_nothing()
    yield "end"


def made_nothing():
    yield from ["power -", "variance -", "third -", "extrema -", "exceed 0 0"]
    yield from ["sobol x - - 0 0 0 0 0", "sobol y - - 0 0 0 0 0"]


def made_statistics(cell, step):
    share = 900_000 * cell // (cell + step + 1)
    yield f"power {cell * 18} {cell * cell * 36} 0 {cell**4 * 36}"
    yield f"variance {cell * cell * 324}/306"
    yield "third 0/5832"
    yield f"extrema {-cell} {3 * cell}"
    yield f"exceed {min(18, cell)} {cell // 2}"
    yield f"sobol x 0.{share:06} 0.950000 1 1 1 1 1"
    yield f"sobol y 0.{900_000 - share:06} 0.{950_000 - share:06} 1 1 1 1 1"


MADE_BINS = """melissa-bins 1
study cells 2 steps 1 groups 2 parameters 1 ranks 1 clients 1
rank 0 accepted 2 kept 0 replay 0 stale 0 repeated 0 foreign 0 0 0 0 0 0
step 0 cell 0 groups 2
bins 0:1 1:1 2:1 63:1
quartiles 0..1023 1024..2047 2048..3071
step 0 cell 1 groups 0
bins -
quartiles -
end
"""


def tried(folder, text, words, pictures):
    """Draws a text, and looks whether there are these pictures and each is a PNG of a sensible size."""
    path, out = pathlib.Path(folder, "text"), pathlib.Path(folder, "out")
    path.write_text(text, encoding="ascii")
    run([str(path), "--out", str(out), *words])
    found = sorted(picture.name for picture in out.iterdir())
    if found != sorted(f"{name}.png" for name in pictures):
        sys.exit(f"self-test: {words}: {found}")
    for picture in out.iterdir():
        head = picture.read_bytes()
        sizes = int.from_bytes(head[16:20], "big"), int.from_bytes(head[20:24], "big")
        if head[:8] != b"\x89PNG\r\n\x1a\n" or not all(200 <= size <= 3000 for size in sizes):
            sys.exit(f"self-test: {picture.name} is no picture of a sensible size: {sizes}")
        picture.unlink()


def self_test():
    kinds = ["indices", "mean", "extrema", "exceed"]
    named = [f"{kind}-{name}" for kind in [*kinds, "steps"] for name in ("u", "v")]
    with tempfile.TemporaryDirectory() as folder:
        for words in ([], ["--width", "5", "--step", "0", "--cell", "3"]):
            tried(folder, "\n".join(made_text(12, 3, ["u", "v"])) + "\n", words, named)
        tried(folder, "\n".join(made_text(12, 1, [])) + "\n", [], kinds)
        tried(folder, "\n".join(made_text(1, 4, [])) + "\n", [], [*kinds, "steps"])
        tried(folder, MADE_BINS, [], ["quartiles"])
        tried(folder, MADE_BINS, ["--width", "2"], ["quartiles"])
    print("self-test passed")


def run(words):
    parser = argparse.ArgumentParser(description=__doc__, formatter_class=argparse.RawDescriptionHelpFormatter)
    parser.add_argument("result")
    parser.add_argument("--width", type=int)
    parser.add_argument("--out", type=pathlib.Path, default=pathlib.Path("."))
    parser.add_argument("--step", type=int)
    parser.add_argument("--cell", type=int)
    parser.add_argument("--bins")
    parser.add_argument("--study")
    options = parser.parse_args(words)
    if options.width is not None and options.width < 1:
        parser.error("--width is at least 1")
    options.out.mkdir(parents=True, exist_ok=True)
    for path in filter(None, [options.result, options.bins]):
        draw(path, options)


def main():
    if sys.argv[1:] == ["--self-test"]:
        self_test()
        return
    try:
        run(sys.argv[1:])
    except (OSError, ValueError) as fault:
        sys.exit(f"plot_result: {fault}")


if __name__ == "__main__":
    main()
