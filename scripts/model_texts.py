"""Model files as sections and entries, read as generously as can be: what is refused is up to `cdpp`.

For the scripts beside it.
"""
from __future__ import annotations

import re
from dataclasses import dataclass, field
from typing import Dict, List, Optional, Set

from model_language import ATOMIC, COUPLED, GROUP, RULES, Key


@dataclass
class Entry:
    """A key and its value, with the numbers of its first and last line."""

    line: int
    last: int
    key: str
    value: str


@dataclass
class Section:
    """A section: its name, the number of its line, and its entries in order."""

    name: str
    line: int
    entries: List[Entry] = field(default_factory=list)

    def values(self, key: str) -> List[str]:
        """The values of a key, entry by entry."""
        return [entry.value for entry in self.entries if entry.key == key]

    def words(self, key: str) -> List[str]:
        """The words of all values of a key."""
        return " ".join(self.values(key)).split()


@dataclass
class Model:
    """The lines of a file, its sections, and what each section is that [top] leads to."""

    lines: List[str]
    sections: List[Section]
    kinds: Dict[str, Dict[str, Key]] = field(default_factory=dict)
    classes: Dict[str, str] = field(default_factory=dict)
    rules: Dict[str, List[Section]] = field(default_factory=dict)

    def section(self, name: str) -> Optional[Section]:
        """The first section of a name."""
        return next((section for section in self.sections if section.name == name), None)

    def section_at(self, line: int) -> Optional[Section]:
        """The section that holds a line."""
        return next((section for section in reversed(self.sections) if section.line <= line), None)

    def entry_at(self, line: int) -> Optional[Entry]:
        """The entry that holds a line."""
        section = self.section_at(line)
        return next((entry for entry in section.entries if entry.line <= line <= entry.last), None) if section else None

    def is_group(self, section: Section) -> bool:
        """Whether a section is a cell group."""
        return self.kinds.get(section.name) is GROUP


def without_comment(line: str) -> str:
    """A line without its comment and the blanks at its ends."""
    return line.split("%")[0].strip(" \t\r")


def open_after(count: int, text: str) -> int:
    """How many braces are open after a text, where so many are before it."""
    for letter in text:
        if letter == "{":
            count += 1
        elif letter == "}":
            count = max(0, count - 1)
    return count


def sections_in(lines: List[str]) -> List[Section]:
    """The sections of a file. A line that is neither section nor entry is passed over, as is one before the first section."""
    sections: List[Section] = []
    opened = 0
    for number, line in enumerate(lines, 1):
        text = without_comment(line).lower()
        if opened:
            entry = sections[-1].entries[-1]
            entry.value, entry.last = f"{entry.value} {text}".strip(), number
            opened = open_after(opened, text)
        elif text.startswith("["):
            sections.append(Section(text.strip("[] \t"), number))
        elif ":" in text and sections:
            key, _, value = text.partition(":")
            sections[-1].entries.append(Entry(number, number, key.strip(), value.strip()))
            opened = open_after(0, value)
    return sections


def reach(model: Model, name: str) -> None:
    """Notes what a component's section is, and those of its own components and rules."""
    section = model.section(name)
    if section is None or name in model.kinds:
        return
    if section.words("type")[:1] == ["cell"]:
        model.kinds[name] = GROUP
        for rules in rules_of(section):
            model.rules.setdefault(rules, []).append(section)
        return
    model.kinds[name] = COUPLED
    for item in section.words("components"):
        child, mark, kind = item.partition("@")
        if not mark:
            reach(model, child)
        else:
            model.classes[child] = kind
            if model.section(child):
                model.kinds.setdefault(child, ATOMIC.get(kind, {}))


def rules_of(group: Section) -> Set[str]:
    """The names of the rules sections that a group names."""
    named = set(group.words("localtransition"))
    named.update(value.split("{")[0].strip() for value in group.values("zone"))
    named.update(value.rpartition(")")[2].strip() for value in group.values("portintransition"))
    return named - {""}


def known_keys(model: Model, section: Section) -> Dict[str, Key]:
    """The keys that something reads in a section; none where nothing reaches it."""
    keys = dict(model.kinds.get(section.name, {}))
    if section.name in model.rules:
        keys.update(RULES)
    return keys


def read_model(text: str) -> Model:
    """The model of a text."""
    lines = text.split("\n")
    model = Model(lines, sections_in(lines))
    reach(model, "top")
    return model


def close(text: str) -> str:
    """A text without its blanks, for comparing tuples and the ends of links."""
    return re.sub(r"\s", "", text)
