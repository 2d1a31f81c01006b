"""What runs write, read back: times, frames, logs and outputs. For the scripts beside it; it needs Python alone."""
from __future__ import annotations

import re
from dataclasses import dataclass
from typing import Dict, Iterable, Iterator, List, Optional, Tuple

TIME = re.compile(r"(\d+):(\d\d?):(\d\d?):(\d{1,3})")
VALUE = re.compile(r"\?|-?\d+(\.\d+)?")
CELL = re.compile(r"([a-z0-9_.-]+)\((\d+),(\d+)(?:,(\d+))?\)")


class Unreadable(Exception):
    """A text that isn't of its form, with the words that say where and how."""


@dataclass(frozen=True)
class Given:
    """A value that a cell or an atomic component gave at a port: time in milliseconds, value as it is written."""

    time: int
    who: str
    port: str
    value: str


@dataclass(frozen=True)
class Frame:
    """A plane of cells at a time in milliseconds, row by row, each value as it is written."""

    time: int
    rows: Tuple[Tuple[str, ...], ...]


def milliseconds(text: str) -> int:
    """The milliseconds of a time `hours:minutes:seconds:milliseconds`."""
    found = TIME.fullmatch(text)
    if not found:
        raise Unreadable(f"no time: {text}")
    hours, minutes, seconds, rest = map(int, found.groups())
    return ((hours * 60 + minutes) * 60 + seconds) * 1000 + rest


def time_text(time: int) -> str:
    """A time in milliseconds as the programs write it."""
    seconds, rest = divmod(time, 1000)
    return f"{seconds // 3600:02}:{seconds // 60 % 60:02}:{seconds % 60:02}:{rest:03}"


def values_in(row: str, width: int, number: int) -> Tuple[str, ...]:
    """The values of a row of a frame, each in so many places; the number of its line says where it doesn't part so."""
    values = tuple(row[at : at + width].lstrip() for at in range(0, len(row), width))
    if len(row) % width or not all(map(VALUE.fullmatch, values)):
        raise Unreadable(f"line {number}: the row doesn't part into values of {width} places: give the -w of the run")
    return values


def frames_in(lines: Iterable[str], width: int) -> Iterator[Frame]:
    """The frames of a text as `cdpp -d` and `drawlog` write them, with so many places for a value."""
    time, rows = 0, []
    for number, line in enumerate(lines, 1):
        line = line.rstrip("\n")
        if line.startswith("Time: "):
            time, rows = milliseconds(line[6:]), []
        elif line.startswith("|") and line.endswith("|"):
            rows.append(values_in(line[1:-1], width, number))
        elif not line and rows:
            yield Frame(time, tuple(rows))
            rows = []
        elif line and not re.fullmatch(r"\+-+\+", line):
            raise Unreadable(f"line {number}: no line of frames")


def given_in(lines: Iterable[str]) -> Iterator[Given]:
    """The values given in a log, at the port `out` (letter Y) and at further ports (letter N)."""
    for number, line in enumerate(lines, 1):
        parts = line.rstrip("\n").split(" / ")
        if len(parts) != 5 or parts[0] not in ("Y", "N", "X", "S"):
            raise Unreadable(f"line {number}: no line of a log")
        if parts[0] in ("Y", "N"):
            yield Given(milliseconds(parts[1]), parts[2], parts[3], parts[4])


def outputs_in(lines: Iterable[str]) -> Iterator[Given]:
    """The values of an output file, as `cdpp -o` writes it; who gave them isn't told there."""
    for number, line in enumerate(lines, 1):
        parts = line.split()
        if len(parts) != 3:
            raise Unreadable(f"line {number}: no line of an output")
        yield Given(milliseconds(parts[0]), "", parts[1], parts[2])


def place_in(who: str, group: str) -> Optional[Tuple[int, int, int]]:
    """Row, column and plane (0 in two dimensions) of a cell of the group; none for any other name."""
    found = CELL.fullmatch(who)
    if not found or found[1] != group:
        return None
    return int(found[2]), int(found[3]), int(found[4] or 0)


def drawn(given: Iterable[Given], group: str, port: str, plane: int) -> List[Frame]:
    """The frames of a plane of a group at one of its ports, one for each time at which a value was given there."""
    times: Dict[int, Dict[Tuple[int, int], str]] = {}
    for it in given:
        place = place_in(it.who, group) if it.port == port else None
        if place and place[2] == plane:
            times.setdefault(it.time, {})[place[:2]] = it.value
    places = [place for values in times.values() for place in values]
    if not places:
        raise Unreadable(f"the log has no values of {group} at the port {port} in plane {plane}")
    rows, columns = (max(place[k] for place in places) + 1 for k in (0, 1))
    shown, frames = [["?"] * columns for _ in range(rows)], []
    for time, values in times.items():
        for (row, column), value in values.items():
            shown[row][column] = value
        frames.append(Frame(time, tuple(map(tuple, shown))))
    return frames


def number_of(value: str) -> Optional[float]:
    """The number of a value; none for `?`."""
    return None if value == "?" else float(value)


def plain(value: str) -> str:
    """A value without the zeros at its end, as one writes it: `1.50000` is `1.5`, `-0.00000` is `0`."""
    if "." in value:
        value = value.rstrip("0").rstrip(".")
    return "0" if value == "-0" else value


def lacking(script: str, error: ImportError, debian: str, pip: str) -> str:
    """What a script says where one of its packages isn't there."""
    return f"{script}: the package {error.name} is missing: apt install {debian}, or pip install {pip}"
