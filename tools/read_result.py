#!/usr/bin/env python3
"""Reads the texts that melissa prints (result, bins, summary of a trial) into NumPy arrays.

    read_result.py TEXT         prints a summary; - is standard input
    read_result.py --self-test  reads small texts made by hand and compares

As a module:

    import read_result
    result = read_result.read("result.txt")
    result.first[step, field, cell, parameter]

read() gives a Result, Bins or Trial: what is in them stands at their classes. For long texts begin() gives a Reader,
which reads a plane (a step and a field) at a time. A text of another form is a FormError, which names the line.
docs/FORMATS.md describes the texts.
"""
import contextlib
import io
import itertools
import re
import sys
from dataclasses import dataclass
from typing import NamedTuple

import numpy as np

CELLS_AT_ONCE = 4096
MOST_PLACES = 1_048_576  # cells * steps * fields of a study are at most so many
BINS = 64
OUTCOMES = ["accepted", "kept", "replay", "stale", "repeated"]
REASONS = ["lane kind", "rows", "group", "step", "client", "cells"]

WATCH = b"melissa-watch 1\n"  # the first line of a watch text, which stands behind a result of `melissad serve`

# Words of the texts.
COUNT = "(0|[1-9][0-9]{0,17})"  # below 2^63
WHOLE = "(0|-?[1-9][0-9]{0,38})"
INDEX = r"(-|-?[0-9]{1,2}\.[0-9]{6})"
NAME = "([A-Za-z0-9_-]{1,32})"


class FormError(ValueError):
    """The text has another form than docs/FORMATS.md says. line is the number, from 1, of a line that shows it."""

    def __init__(self, name, line, why):
        super().__init__(f"{name}: line {line}: {why}")
        self.line = line


@dataclass(frozen=True)
class Study:
    """The numbers of the study line. fields is None where the study doesn't name its fields: then it has one."""

    cells: int
    steps: int
    groups: int
    parameters: int
    ranks: int
    clients: int
    fields: int | None


class Lane(NamedTuple):
    """A lane line: kind is client or control, end is clean, cut or another word, at is None where it is clean."""

    number: int
    rank: int
    kind: str
    events: int
    end: str
    at: int | None


@dataclass
class Result:
    """A result text. Every array begins with the axes step, field, cell; what follows them is told behind it. A
    statistic that isn't printed is None. Where a cell has no group, exact numbers are 0; an index that is printed as -
    is NaN. Arrays of Python integers have dtype object, as their numbers can pass 64 bits."""

    study: Study
    ranks: np.ndarray  # rank, then the five outcomes and the six foreign reasons
    lanes: list
    field_names: list  # one empty name where the study names none
    parameter_names: list  # empty where no index is printed
    groups: np.ndarray  # n, the groups that were accepted. There are 2n samples
    powers: np.ndarray | None = None  # P1 to P4, Python integers
    variance: np.ndarray | None = None  # V and D of the fraction, Python integers
    third: np.ndarray | None = None  # U and E of the fraction, Python integers
    extrema: np.ndarray | None = None  # least and greatest
    exceed: np.ndarray | None = None  # for each threshold
    first: np.ndarray | None = None  # for each parameter, floats
    total: np.ndarray | None = None  # for each parameter, floats
    covariances: np.ndarray | None = None  # for each parameter: cB, cA, vA, vB, vC


@dataclass
class Bins:
    """A bins text, with axes as a Result's."""

    study: Study
    ranks: np.ndarray
    lanes: list
    field_names: list
    groups: np.ndarray
    counts: np.ndarray  # for each of the 64 bins
    quartiles: np.ndarray  # for each of the three its bracket's least and greatest value


@dataclass
class Trial:
    """The summary of a trial: least and greatest number of groups, and P1 and P2 over all planes and cells."""

    number: int
    lanes: int
    events: int
    ranks: np.ndarray
    groups: tuple
    sums: tuple


def quotient(pairs):
    """The fractions of an array whose last axis has a numerator and a denominator, as floats: NaN over 0."""
    flat = [over / under if under else np.nan for over, under in pairs.reshape(-1, 2).tolist()]
    return np.array(flat, dtype=float).reshape(pairs.shape[:-1])


def mean(powers, groups):
    """The mean of the samples, from arrays of a Result: NaN where there is none."""
    return quotient(np.stack([powers[..., 0], 2 * groups.astype(object)], axis=-1))


# Lines.


class Lines:
    """The lines of a text, and how many of them were taken."""

    def __init__(self, stream, name):
        self.stream, self.name, self.taken = iter(stream), name, 0

    def take(self, number):
        """The next lines, fewer at the end."""
        lines = list(itertools.islice(self.stream, number))
        self.taken += len(lines)
        return lines

    def put_back(self, lines):
        """These lines, which were taken last, stand before the others again."""
        self.stream = itertools.chain(lines, self.stream)
        self.taken -= len(lines)

    def taken_while(self, word):
        """All lines up to the first that doesn't begin with this word."""
        while lines := self.take(1):
            if not lines[0].startswith(word):
                self.put_back(lines)
                return
            yield lines[0]

    def words(self, pattern, wanted):
        """The words of the next line, which has this pattern and is told by what is wanted."""
        lines = self.take(1)
        if not lines:
            raise self.fault(self.taken + 1, b"", wanted)
        return self.words_of(lines[0], pattern, wanted)

    def words_of(self, line, pattern, wanted):
        """The same of the line that was taken last."""
        if found := re.fullmatch(f"{pattern}\n".encode(), line):
            return found.groups()
        raise self.fault(self.taken, line, wanted)

    def fault(self, number, found, wanted):
        if not found:
            return FormError(self.name, number, f"the text ends, but {wanted} should stand here")
        shown = found[:200].rstrip(b"\n").decode("ascii", "backslashreplace")
        newline = "" if found.endswith(b"\n") or len(found) > 200 else " without a newline"
        return FormError(self.name, number, f"'{shown}'{newline}, but {wanted} should stand here")

    def end(self):
        """The last line, and nothing behind it but the watch text of a server, which is not read."""
        self.words("end", "end")
        for line in self.take(1):
            if line != WATCH:
                raise self.fault(self.taken, line, "nothing")


# What stands before the cells.


def study_of(lines):
    keys = ["cells", "steps", "groups", "parameters", "ranks", "clients"]
    pattern = f"study {' '.join(f'{key} {COUNT}' for key in keys)}(?: fields {COUNT})?"
    words = lines.words(pattern, "study cells M steps S groups G parameters P ranks R clients K")
    study = Study(*(None if word is None else int(word) for word in words))
    numbers = [1 if number is None else number for number in vars(study).values()]
    if min(numbers) < 1 or study.cells * study.steps * numbers[-1] > MOST_PLACES:
        raise FormError(lines.name, lines.taken, "no study has these numbers")
    return study


def ranks_of(lines):
    """The counts of all rank lines."""
    ranks = []
    for line in lines.taken_while(b"rank "):
        told = " ".join(f"{outcome} N" for outcome in OUTCOMES) + " foreign N N N N N N"
        words = lines.words_of(line, f"rank {len(ranks)} {told}".replace("N", COUNT), f"rank {len(ranks)} {told}")
        ranks.append(list(map(int, words)))
    if not ranks:
        raise FormError(lines.name, lines.taken + 1, "no line of a rank stands before this one")
    return np.array(ranks, dtype=np.int64)


def lanes_of(lines):
    """All lane lines."""
    lanes = []
    pattern = f"lane {COUNT} rank {COUNT} (client|control) events {COUNT} "
    pattern += f"(?:(clean)|(cut|bad-kind|bad-length|fault|full) at {COUNT})"
    for line in lines.taken_while(b"lane "):
        words = lines.words_of(line, pattern, "lane L rank R KIND events E END")
        number, rank, kind, events, clean, end, at = (word and word.decode() for word in words)
        if lanes and lanes[-1].number >= int(number):
            raise FormError(lines.name, lines.taken, "the lanes' numbers don't rise")
        lanes.append(Lane(int(number), int(rank), kind, int(events), clean or end, None if clean else int(at)))
    return lanes


# The lines of a cell.


class RowFault(Exception):
    """What is wrong in the lines of a cell, the row-th of those that were read together."""

    def __init__(self, row, why):
        super().__init__(why)
        self.row = row


@dataclass
class Part:
    """An array to be filled: its shape for a cell, the kind of its numbers, and the places of their words."""

    shape: tuple
    kind: type
    places: list

    def read(self, columns):
        """The numbers of some cells, from their words, which are None where the text has one - for several."""
        if self.kind is float:
            numbers = [[np.nan if word == b"-" else float(word) for word in columns[at]] for at in self.places]
            return np.array(numbers, dtype=float).T.reshape((-1, *self.shape))
        words = [columns[at] for at in self.places]
        if None in words[0]:
            words = [[word or b"0" for word in column] for column in words]
        numbers = [list(map(int, column)) for column in words]
        for column in numbers if self.kind is np.int64 else []:
            if not -(2**63) <= min(column) <= max(column) < 2**63:
                row = next(row for row, number in enumerate(column) if not -(2**63) <= number < 2**63)
                raise RowFault(row, "a number has more than 64 bits")
        return np.array(numbers, dtype=self.kind).T.reshape((-1, *self.shape))


class Counts(Part):
    """The counts of bins, from words like ' 0:1 63:1'."""

    def read(self, columns):
        words = columns[self.places[0]]
        counts = np.zeros((len(words), BINS), dtype=np.int64)
        for row, word in enumerate(words):
            numbers = list(map(int, (word or b"").replace(b":", b" ").split()))
            bins = numbers[::2]
            if bins and bins[-1] >= BINS or any(low >= high for low, high in zip(bins, bins[1:])):
                raise RowFault(row, "the bins don't rise below 64")
            if bins:
                counts[row, bins] = numbers[1::2]
        return counts


class Layout:
    """The lines of each cell, as they are told in a fault and as patterns, and the arrays that they fill."""

    def __init__(self, study):
        self.forms, self.patterns, self.parts = [], [], {}
        field, name = ("", "") if study.fields is None else (" field NAME", f" field {NAME}")
        self.words = 2 if study.fields is None else 3  # step, field and cell aren't kept
        self.add(f"step T{field} cell X groups N", f"step {COUNT}{name} cell {COUNT} groups {COUNT}")
        self.fill("groups", 1, (), np.int64)

    def add(self, form, pattern):
        self.forms.append(form)
        self.patterns.append(f"{pattern}\n".encode())

    def fill(self, name, number, shape, kind, part=Part):
        """The next words go to this array."""
        self.parts.setdefault(name, part(shape, kind, [])).places.extend(range(self.words, self.words + number))
        self.words += number

    def add_powers(self):
        self.add("power P1 P2 P3 P4", f"power (?:-|{WHOLE} {WHOLE} {WHOLE} {WHOLE})")
        self.fill("powers", 4, (4,), object)
        self.add("variance V/D", f"variance (?:-|{WHOLE}/{COUNT})")
        self.fill("variance", 2, (2,), object)
        self.add("third U/E", f"third (?:-|{WHOLE}/{COUNT})")
        self.fill("third", 2, (2,), object)

    def add_extrema(self):
        self.add("extrema LEAST GREATEST", f"extrema (?:-|{WHOLE} {WHOLE})")
        self.fill("extrema", 2, (2,), np.int64)

    def add_exceed(self, thresholds):
        self.add("exceed" + " N" * thresholds, "exceed" + f" {COUNT}" * thresholds)
        self.fill("exceed", thresholds, (thresholds,), np.int64)

    def add_sobol(self, names):
        for name in names:
            self.add(f"sobol {name} FIRST TOTAL cB cA vA vB vC", f"sobol {name} {INDEX} {INDEX}" + f" {WHOLE}" * 5)
            self.fill("first", 1, (len(names),), float)
            self.fill("total", 1, (len(names),), float)
            self.fill("covariances", 5, (len(names), 5), np.int64)

    def add_bins(self):
        self.add("bins I:COUNT ..", "bins(?: -|((?: [0-9]{1,2}:[0-9]{1,10})+))")
        self.fill("counts", 1, (BINS,), np.int64, Counts)
        bracket = rf"{WHOLE}\.\.{WHOLE}"
        self.add("quartiles A..B A..B A..B", f"quartiles (?:-|{bracket} {bracket} {bracket})")
        self.fill("quartiles", 6, (3, 2), np.int64)


def result_layout(study, first):
    """The layout of a result, by the lines of its first cell, and the names of its parameters."""
    layout, names = Layout(study), []
    shown = {line.split()[0]: line for line in first if line.split()}
    if shown.keys() & {b"power", b"variance", b"third"}:
        layout.add_powers()
    if b"extrema" in shown:
        layout.add_extrema()
    if b"exceed" in shown:
        layout.add_exceed(max(1, shown[b"exceed"].count(b" ")))
    if b"sobol" in shown:
        names = [found[1].decode() for line in first if (found := re.match(f"sobol {NAME} ".encode(), line))]
        names += [f"NAME{k}" for k in range(len(names), study.parameters)]  # these lines will be missed
        layout.add_sobol(names[: study.parameters])
    return layout, names


# Readers.


class Plane(NamedTuple):
    """A step and field, and the arrays of its cells by the names that a Result or Bins has for them."""

    step: int
    field: int
    arrays: dict


class Reader:
    """A result or bins text. What stands before the cells is read at once, and then planes() reads the cells.
    progress, where given, is called with the number of cells that were read and of all."""

    def __init__(self, lines, bins, progress=None):
        self.lines, self.bins, self.progress = lines, bins, progress
        self.study = study_of(lines)
        self.fields = self.study.fields or 1
        self.ranks = ranks_of(lines)
        if len(self.ranks) != self.study.ranks:
            why = f"{len(self.ranks)} lines of ranks stand before this one, and the study has {self.study.ranks}"
            raise FormError(lines.name, lines.taken + 1, why)
        self.lanes = lanes_of(lines)
        self.field_names = [] if self.study.fields else [""]
        self.layout, self.parameter_names = result_layout(self.study, self.first_cell())
        if bins:
            self.layout, self.parameter_names = Layout(self.study), []
            self.layout.add_bins()
        self.pattern = re.compile(b"".join(self.layout.patterns))
        self.done, self.all = 0, self.study.cells * self.study.steps * self.fields

    def first_cell(self):
        """The lines of the first cell behind its step line. All stay."""
        lines = self.lines.take(6 + self.study.parameters)
        self.lines.put_back(lines)
        return list(itertools.takewhile(lambda line: not line.startswith((b"step ", b"end\n")), lines[1:]))

    def planes(self):
        """Each plane, by rising step and in it field, and then the end of the text."""
        for step in range(self.study.steps):
            for field in range(self.fields):
                yield self.plane(step, field)
        self.lines.end()

    def plane(self, step, field):
        cells, parts = self.study.cells, self.layout.parts
        arrays = {name: np.empty((cells, *part.shape), dtype=part.kind) for name, part in parts.items()}
        for start in range(0, cells, CELLS_AT_ONCE):
            some, line = range(start, min(start + CELLS_AT_ONCE, cells)), self.lines.taken + 1
            columns = list(zip(*map(self.cell_words, some)))
            try:
                self.check_places(columns, step, field, some)
                here = {name: part.read(columns) for name, part in parts.items()}
                self.check_groups(here)
            except RowFault as fault:
                where = line + fault.row * len(self.layout.forms)
                raise FormError(self.lines.name, where, f"in the lines of this cell, {fault}") from None
            for name, array in here.items():
                arrays[name][start : some.stop] = array
            self.done += len(some)
            if self.progress:
                self.progress(self.done, self.all)
        return Plane(step, field, arrays)

    def cell_words(self, _):
        """The words of the next cell."""
        lines = self.lines.take(len(self.layout.forms))
        if found := self.pattern.fullmatch(b"".join(lines)):
            return found.groups()
        start = self.lines.taken - len(lines) + 1
        for at, (form, pattern) in enumerate(zip(self.layout.forms, self.layout.patterns)):
            line = lines[at] if at < len(lines) else b""
            if not re.fullmatch(pattern, line):
                raise self.lines.fault(start + at, line, form)
        raise AssertionError("each line is right, but not all of them")

    def check_places(self, columns, step, field, cells):
        """The step lines are those of these cells. A field has the name of its first cell."""
        steps, names, places = columns[:3] if self.study.fields else (columns[0], [b""] * len(cells), columns[1])
        if field == len(self.field_names):
            self.field_names.append(names[0].decode())
            if len(set(self.field_names)) <= field:
                raise RowFault(0, "the field has the name of another")
        name = self.field_names[field].encode()
        for row, cell in enumerate(cells):
            if (steps[row], names[row], places[row]) != (b"%d" % step, name, b"%d" % cell):
                raise RowFault(row, f"step {step}, field {field} and cell {cell} should stand")

    def check_groups(self, arrays):
        """The cells' numbers of groups are possible, and the denominators and bins are those of so many."""
        samples = 2 * arrays["groups"]
        bad = samples > 2 * self.study.groups
        if "variance" in arrays:
            bad = bad | (arrays["variance"][:, 1] != samples * (samples - 1))
        if "counts" in arrays:
            bad = bad | (arrays["counts"].sum(axis=1) != samples)
        if bad.any():
            raise RowFault(int(np.argmax(bad)), "the number of groups can't be")

    def whole(self):
        """The whole text, as a Result or Bins."""
        shape = self.study.steps, self.fields, self.study.cells
        parts = self.layout.parts
        arrays = {name: np.empty((*shape, *part.shape), dtype=part.kind) for name, part in parts.items()}
        for plane in self.planes():
            for name, array in plane.arrays.items():
                arrays[name][plane.step, plane.field] = array
        if self.bins:
            return Bins(self.study, self.ranks, self.lanes, self.field_names, **arrays)
        return Result(self.study, self.ranks, self.lanes, self.field_names, self.parameter_names, **arrays)


def read_trial(lines):
    """The summary of a trial from its second line on."""
    (number,) = lines.words("number (0|[1-9][0-9]{0,19})", "number N")
    lanes, events = lines.words(f"lanes {COUNT} events {COUNT}", "lanes L events E")
    ranks = ranks_of(lines)
    groups = lines.words(f"groups {COUNT} {COUNT}", "groups LEAST GREATEST")
    sums = lines.words(f"sum {WHOLE} {WHOLE}", "sum P1 P2")
    lines.end()
    return Trial(int(number), int(lanes), int(events), ranks, tuple(map(int, groups)), tuple(map(int, sums)))


def begin(stream, name, progress=None):
    """A Reader of a stream of bytes that begins a result or bins text, or a Trial. The name is for messages."""
    first, lines = stream.readline(100), Lines(stream, name)
    lines.taken = 1
    if first == b"melissa-trial 1\n":
        return read_trial(lines)
    if first not in (b"melissa-result 1\n", b"melissa-bins 1\n"):
        raise lines.fault(1, first, "melissa-result 1, melissa-bins 1 or melissa-trial 1")
    return Reader(lines, first == b"melissa-bins 1\n", progress)


@contextlib.contextmanager
def opened(path):
    """The bytes of a file, or of standard input where the path is -, and its name for messages."""
    if str(path) == "-":
        yield sys.stdin.buffer, "standard input"
    else:
        with open(path, "rb") as stream:
            yield stream, str(path)


def read(path, progress=None):
    """A text as a Result, Bins or Trial. The path - is standard input."""
    with opened(path) as (stream, name):
        text = begin(stream, name, progress)
        return text.whole() if isinstance(text, Reader) else text


# The summary.


def show_progress(done, everything):
    """Tells on a terminal how far the reading of a text of more than 100,000 cells and planes is."""
    if everything > 100_000 and sys.stderr.isatty():
        end = "\n" if done == everything else ""
        print(f"\r{100 * done // everything} % of {everything:,} cells", end=end, file=sys.stderr, flush=True)


def span(array):
    """The least and greatest number of an array, as words."""
    known = array[~np.isnan(array)] if array.dtype == float else array
    form = "g" if array.dtype == float else ","
    return f"{known.min():{form}} to {known.max():{form}}" if known.size else "none"


def ranks_summary(ranks):
    names = OUTCOMES + [f"foreign by {reason}" for reason in REASONS]
    for rank, counts in enumerate(ranks.tolist()):
        told = [f"{name} {count:,}" for name, count in zip(names, counts) if count]
        yield f"rank {rank}: {', '.join(told) or 'nothing'}"


def field_summary(text, field):
    """What a field has over all steps and cells."""
    groups = text.groups[:, field]
    yield f"groups of a cell: {span(groups)}"
    if isinstance(text, Bins):
        for j, name in enumerate(["lower quartile", "median", "upper quartile"]):
            yield f"{name}: in brackets within {span(text.quartiles[:, field][groups > 0][:, j])}"
        return
    if text.powers is not None:
        yield f"mean: {span(mean(text.powers[:, field], groups))}"
        yield f"standard deviation: {span(np.sqrt(quotient(text.variance[:, field])))}"
    if text.extrema is not None:
        yield f"samples: {span(text.extrema[:, field][groups > 0])}"
    for k, name in enumerate(text.parameter_names):
        first = text.first[:, field]
        leads = np.where(np.isnan(first), -2, first).argmax(axis=-1) == k
        number = int((leads & ~np.isnan(first[..., k])).sum())
        spans = f"first {span(first[..., k])}, total {span(text.total[:, field, :, k])}"
        yield f"{name}: {spans}, greatest first in {number:,} of {leads.size:,} cells"


def summary(text):
    if isinstance(text, Trial):
        yield f"trial {text.number}: {text.lanes:,} lanes, {text.events:,} events"
        yield from ranks_summary(text.ranks)
        yield f"groups {text.groups[0]:,} to {text.groups[1]:,}, sums {text.sums[0]:,} and {text.sums[1]:,}"
        return
    yield ", ".join(f"{name} {number:,}" for name, number in vars(text.study).items() if number is not None)
    yield from ranks_summary(text.ranks)
    clean = sum(lane.end == "clean" for lane in text.lanes)
    yield f"{len(text.lanes):,} lanes, {clean:,} of them clean"
    for lane in text.lanes:
        if lane.end != "clean":
            yield f"lane {lane.number}: {lane.end} at {lane.at:,}"
    for field, name in enumerate(text.field_names):
        if name:
            yield f"field {name}"
        yield from field_summary(text, field)


# The self-test: texts by hand, from docs/FORMATS.md.

TWO_GROUPS = b"""melissa-result 1
study cells 1 steps 1 groups 2 parameters 1 ranks 1 clients 1
rank 0 accepted 2 kept 0 replay 0 stale 0 repeated 0 foreign 0 0 0 0 0 0
lane 0 rank 0 client events 2 clean
step 0 cell 0 groups 2
power 10 36 154 708
variance 44/12
third 144/64
sobol x 1.000000 2.000000 4 -8 16 4 4
end
"""

# At field u the samples of A and B are 65,535 in each of 65,535 groups; least, numbers above and indices are made up.
# Nothing came for field v.
TWO_FIELDS = b"""melissa-result 1
study cells 1 steps 1 groups 65535 parameters 2 ranks 1 clients 1 fields 2
rank 0 accepted 65535 kept 0 replay 0 stale 8 repeated 9 foreign 1 2 3 4 5 6
lane 1 rank 0 client events 2 cut at 70
lane 3 rank 0 control events 0 bad-kind at 0
step 0 field u cell 0 groups 65535
power 8589672450 562924184010750 36891236399144501250 2417667177417934889418750
variance 0/17179213830
third 0/2251696736043000
extrema -3 65535
exceed 131070 7
sobol x -0.250000 1.250000 -1 -1 4 4 4
sobol W - 0.500000 0 1 4 0 1
step 0 field v cell 0 groups 0
power -
variance -
third -
extrema -
exceed 0 0
sobol x - - 0 0 0 0 0
sobol W - - 0 0 0 0 0
end
"""

TWO_BINS = b"""melissa-bins 1
study cells 2 steps 1 groups 2 parameters 1 ranks 1 clients 1
rank 0 accepted 2 kept 0 replay 0 stale 0 repeated 0 foreign 0 0 0 0 0 0
lane 0 rank 0 client events 2 clean
step 0 cell 0 groups 2
bins 0:1 1:1 2:1 63:1
quartiles 0..1023 1024..2047 2048..3071
step 0 cell 1 groups 0
bins -
quartiles -
end
"""

A_TRIAL = b"""melissa-trial 1
number 42
lanes 3 events 7
rank 0 accepted 1 kept 0 replay 1 stale 0 repeated 0 foreign 0 0 0 0 0 0
groups 1 1
sum 1177 705949
end
"""

# A text, what is changed in it, and the line that is then at fault.
FAULTS = [
    (TWO_GROUPS, b"melissa-result 1", b"melissa-result 2", 1),
    (TWO_GROUPS, b"cells 1 ", b"cells 01 ", 2),
    (TWO_GROUPS, b"cells 1 ", b"cells 1048577 ", 2),
    (TWO_GROUPS, b"rank 0 accepted", b"rank 1 accepted", 3),
    (TWO_GROUPS, b"ranks 1", b"ranks 2", 4),
    (TWO_GROUPS, b"events 2 clean", b"events 2", 4),
    (TWO_GROUPS, b"step 0 cell 0", b"step 0 cell 1", 5),
    (TWO_GROUPS, b"groups 2\n", b"groups 3\n", 5),
    (TWO_GROUPS, b"groups 2\n", b"groups 0\n", 5),
    (TWO_GROUPS, b"10 36", b"10  36", 6),
    (TWO_GROUPS, b"44/12", b"44", 7),
    (TWO_GROUPS, b"third 144/64\n", b"", 8),
    (TWO_GROUPS, b"1.000000 2.000000", b"1.0 2.0", 9),
    (TWO_GROUPS, b"parameters 1", b"parameters 2", 10),
    (TWO_GROUPS, b"parameters 1", b"parameters 0", 2),
    (TWO_GROUPS, b"end\n", b"", 10),
    (TWO_GROUPS, b"end\n", b"end", 10),
    (TWO_GROUPS, b"end\n", b"end\nend\n", 11),
    (TWO_GROUPS, b"end\n", b"end\nmelissa-watch 2\n", 11),
    (TWO_FIELDS, b"v cell 0", b"u cell 0", 14),
    (TWO_FIELDS, b"lane 3", b"lane 1", 5),
    (TWO_FIELDS, b"-3 65535", b"-3 9223372036854775808", 6),
    (TWO_FIELDS, b"W - 0", b"Z - 0", 21),
    (TWO_FIELDS, b"sobol W - -", b"sobol Z - -", 21),
    (TWO_BINS, b"2:1 63:1", b"2:1 2:1", 5),
    (TWO_BINS, b"2:1 63:1", b"2:1 63:2", 5),
    (TWO_BINS, b"quartiles -", b"quartiles", 10),
    (A_TRIAL, b"sum 1177", b"sum", 6),
]


def read_bytes(text):
    found = begin(io.BytesIO(text), "text")
    return found.whole() if isinstance(found, Reader) else found


def same(found, wanted):
    found = found.tolist() if isinstance(found, np.ndarray) else found
    if repr(found) != repr(wanted):
        sys.exit(f"self-test: {found} should be {wanted}")


def test_two_groups():
    result = read_bytes(TWO_GROUPS)
    same(result.ranks, [[2] + [0] * 10])
    same(result.lanes, [Lane(0, 0, "client", 2, "clean", None)])
    same((result.field_names, result.parameter_names), ([""], ["x"]))
    same((result.groups.tolist(), result.extrema, result.exceed), ([[[2]]], None, None))
    same(result.powers, [[[[10, 36, 154, 708]]]])
    same((result.variance.tolist(), result.third.tolist()), ([[[[44, 12]]]], [[[[144, 64]]]]))
    same((quotient(result.third).tolist(), mean(result.powers, result.groups).tolist()), ([[[2.25]]], [[[2.5]]]))
    same((result.first.tolist(), result.total.tolist()), ([[[[1.0]]]], [[[[2.0]]]]))
    same(result.covariances, [[[[[4, -8, 16, 4, 4]]]]])


def test_served():
    watch = b"melissa-watch 1\n0 start 0 1\nend running 1 waiting 1 finished 0 givenup 0\n"
    same(read_bytes(TWO_GROUPS + watch).powers, [[[[10, 36, 154, 708]]]])


def test_two_fields():
    result, nan = read_bytes(TWO_FIELDS), float("nan")
    same(result.ranks, [[65535, 0, 0, 8, 9, 1, 2, 3, 4, 5, 6]])
    same(result.lanes, [Lane(1, 0, "client", 2, "cut", 70), Lane(3, 0, "control", 0, "bad-kind", 0)])
    same((result.field_names, result.parameter_names), (["u", "v"], ["x", "W"]))
    same(result.groups, [[[65535], [0]]])
    same(result.powers[0, :, 0, 3], [2417667177417934889418750, 0])
    same(mean(result.powers, result.groups), [[[65535.0], [nan]]])
    same(result.extrema, [[[[-3, 65535]], [[0, 0]]]])
    same(result.exceed, [[[[131070, 7]], [[0, 0]]]])
    same(result.first, [[[[-0.25, nan]], [[nan, nan]]]])
    same(result.total, [[[[1.25, 0.5]], [[nan, nan]]]])
    same(result.covariances[0, 0, 0], [[-1, -1, 4, 4, 4], [0, 1, 4, 0, 1]])


def test_bins_and_trial():
    bins = read_bytes(TWO_BINS)
    same(bins.counts[0, 0], [[1, 1, 1] + [0] * 60 + [1], [0] * 64])
    same(bins.quartiles[0, 0], [[[0, 1023], [1024, 2047], [2048, 3071]], [[0, 0]] * 3])
    trial = read_bytes(A_TRIAL)
    same((trial.number, trial.lanes, trial.events, trial.groups, trial.sums), (42, 3, 7, (1, 1), (1177, 705949)))
    same(trial.ranks, [[1, 0, 1] + [0] * 8])


def test_faults():
    for text, old, new, line in FAULTS:
        if text.count(old) != 1:
            sys.exit(f"self-test: {old} doesn't stand once in its text")
        try:
            read_bytes(text.replace(old, new))
        except FormError as fault:
            same((new, fault.line), (new, line))
        else:
            sys.exit(f"self-test: {new} in the place of {old} was read")


def self_test():
    test_two_groups()
    test_served()
    test_two_fields()
    test_bins_and_trial()
    test_faults()
    for text in (TWO_GROUPS, TWO_FIELDS, TWO_BINS, A_TRIAL):
        same(bool(list(summary(read_bytes(text)))), True)
    print("self-test passed")


def main():
    match sys.argv[1:]:
        case ["--self-test"]:
            self_test()
        case [path] if path == "-" or not path.startswith("-"):
            try:
                for line in summary(read(path, show_progress)):
                    print(line)
            except (OSError, FormError) as fault:
                sys.exit(f"read_result: {fault}")
        case _:
            sys.exit(__doc__)


if __name__ == "__main__":
    main()
