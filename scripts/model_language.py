"""The language of models as tables: the keys of each section, the words of rules, and the kinds of refusal.

For the scripts beside it.
"""
from __future__ import annotations

from typing import Dict, List, NamedTuple, Tuple


class Key(NamedTuple):
    """A key: the forms of its value in words, and whether it may stand more than once."""

    form: str
    is_repeated: bool = False


PORTS = Key("names of ports, parted by blanks", True)
LINKS = Key("two ends, parted by a blank: port, port@child, or in a group port@group(i,j)", True)
TIME = Key("a time in full, 00:00:05:000")
VALUE = Key("a number with a point, as 0.5, or ?")
COUNT = Key("a whole number, at least 1")

# The sections by what they are. `atomic` has a table for each class.
COUPLED: Dict[str, Key] = {
    "type": Key("coupled"),
    "components": Key("components, parted by blanks: name, or name@class", True),
    "in": PORTS,
    "out": PORTS,
    "link": LINKS,
}
GROUP: Dict[str, Key] = {
    "type": Key("cell"),
    "dim": Key("(rows,columns) or (rows,columns,planes), each at least 1, and no height or width beside it"),
    "height": COUNT,
    "width": COUNT,
    "border": Key("wrapped or nowrapped"),
    "neighbors": Key(
        "offsets as g(0,-1), the group's name or none before each, as many coordinates as dim, from -64 to 64", True
    ),
    "delay": Key("transport or inertial"),
    "defaultdelaytime": Key("whole milliseconds, 0 to 359999999"),
    "localtransition": Key("the name of a rules section"),
    "zone": Key("the name of a rules section and cells: edge { (0,0) (2,3)..(4,9) }", True),
    "portintransition": Key("port@group(i,j), a blank, the name of a rules section; once for each port and cell", True),
    "initialvalue": VALUE,
    "initialrowvalue": Key("a row and a digit or ? for each cell: 2 01110", True),
    "initialrow": Key("a row and a value for each cell: 0 20 -1.5 ?", True),
    "initialmapvalue": Key("the name of a file"),
    "initialcellsvalue": Key("the name of a file"),
    "statevariables": Key("1 to 8 different words"),
    "statevalues": Key("as many values as there are words in statevariables, which has to stand"),
    "neighborports": Key("1 to 3 different words, none of them out"),
    "portvalues": Key("as many values as there are words in neighborports, which has to stand"),
    "in": PORTS,
    "out": PORTS,
    "link": LINKS,
}
ATOMIC: Dict[str, Dict[str, Key]] = {
    "queue": {"preparation": TIME},
    "generator": {"start": TIME, "period": TIME, "value": VALUE, "step": VALUE, "count": COUNT},
    "cpu": {"delay": TIME},
    "counter": {"delay": TIME, "start": VALUE, "step": VALUE},
    "table": {
        "states": Key("1 to 64 different names"),
        "initial": Key("one of the states"),
        "hold": Key("a state, a time in full, a value or last, a state; once for each state", True),
        "take": Key("a state, an input (a, b, c or d), a value or any, a state", True),
    },
}
RULES: Dict[str, Key] = {"rule": Key("a value, perhaps sets, a delay, a condition in braces", True)}
INPUTS: Dict[str, List[str]] = {
    "queue": ["in", "done"],
    "generator": [],
    "cpu": ["in"],
    "counter": ["in", "reset"],
    "table": ["a", "b", "c", "d"],
}

# What other tools call a thing, and what it is called here.
INSTEAD: Dict[str, str] = {
    "distribution": "period of a generator, delay of a cpu",
    "mean": "period of a generator, delay of a cpu",
    "initial": "value",
    "increment": "step",
    "initialvariablesvalue": "a first rule that sets the variables",
    "neighbours": "neighbors",
    "rules": "rule",
}

# The functions with their numbers of arguments, and the other words of rules.
FUNCTIONS: Dict[str, int] = {
    "abs": 1,
    "sign": 1,
    "sqrt": 1,
    "trunc": 1,
    "fractional": 1,
    "round": 1,
    "even": 1,
    "odd": 1,
    "isint": 1,
    "isundefined": 1,
    "statecount": 1,
    "cellpos": 1,
    "min": 2,
    "max": 2,
    "remainder": 2,
    "if": 3,
    "ifu": 4,
}
TRUTH_FUNCTIONS = ("even", "odd", "isint", "isundefined")
WORDS = (
    "imp",
    "eqv",
    "or",
    "xor",
    "and",
    "not",
    "t",
    "f",
    "time",
    "truecount",
    "falsecount",
    "undefcount",
    "portvalue",
    "thisport",
)
RANDOM = (
    "random",
    "randint",
    "randsign",
    "uniform",
    "normal",
    "exponential",
    "poisson",
    "binomial",
    "beta",
    "gamma",
    "chi",
)

# Words that modellers write, and what stands for them.
WORDS_INSTEAD: Dict[str, str] = {
    "true": "t",
    "false": "f",
    "mod": "remainder(a,b)",
    "power": "a product: (0,0) * (0,0)",
    "pow": "a product: (0,0) * (0,0)",
    "int": "trunc(a)",
    "floor": "trunc(a)",
    "ceil": "trunc(a) + if(fractional(a) = 0, 0, 1)",
    "then": "if(condition, value, value)",
    "else": "if(condition, value, value)",
    "e": "a number without an exponent, as 0.001",
    "send": "the cell's value: links take what it gives at out",
}

# Each kind of refusal of a model in a sentence.
KINDS: Dict[int, str] = {
    1: "A line is neither a section nor an entry, or has a byte that isn't allowed.",
    2: "Two sections have one name.",
    3: "There is no section [top].",
    5: "A key that may stand once stands again.",
    6: "A group lacks localtransition or its size, or a coupled component has no component.",
    7: "A value is off the form of its key.",
    8: "A component without class has no section.",
    9: "Two components of the model have one name.",
    10: "A component is named top, or like a section around it.",
    11: "What stands behind @ is no class.",
    12: "All ready-made models of the class are in use.",
    13: "A parameter of an atomic component is off its form.",
    14: "An end of a link is no port that may stand there.",
    15: "Both ends of a link are at one component, or at one cell.",
    16: "Both ends of a link are ports of the section itself.",
    17: "The link stands before in its section.",
    18: "There are more than 65536 paths of links.",
    19: "The text is no rule: a piece of it is no token, or its parts aren't value, delay and condition.",
    20: "A truth value stands where a number has to, or a number where a truth value has to.",
    21: "The rule has a random function, and there are none here.",
    22: "A word of the rule isn't one of the language.",
    23: "A cell in the rule is no offset of the group's neighbors.",
    24: "A zone isn't a name and items in braces, or an item lies outside the space or is turned round.",
    25: "A row or a file of values is off its form.",
    26: "A limit is passed: docs/MODELS.md has them at its end.",
    27: "A file has more than 16777216 bytes.",
    28: "A group names rules that have no section.",
    29: "What -g names is no cell group of the model, or it hasn't the plane of -f.",
    30: "A word behind $ is no variable of the group.",
    31: "A word behind ~ is neither out nor a further port of the group.",
}
EVENT_KINDS: Dict[int, str] = {
    1: "A line isn't a time in full, a name and a value, parted by blanks.",
    2: "The name is no input of [top].",
    3: "There are more than 1048576 events, or 16777216 bytes.",
}

# What a sign that no token has most likely stands for.
SIGNS: Tuple[Tuple[str, str], ...] = (
    ("&", "and is written: a and b"),
    ("|", "or is written: a or b"),
    ("!", "not is written not a, and unequal a != b"),
    ("^", "there is no power: write a product"),
    ("[", "parentheses are round"),
    ("]", "parentheses are round"),
    (":", "a set or a give is written with :="),
    ('"', "no text stands in a rule"),
    ("'", "no text stands in a rule"),
    ("#", "there are no macros: write the text itself"),
    ("@", "a port of a neighbour is written (0,1)~port"),
)
