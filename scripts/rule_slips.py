"""What is wrong in the text of a rule, and what the slip most likely is. For the scripts beside it.

The text is read by the grammar of docs/RULES.md up to the first place where it can't go on.
"""
from __future__ import annotations

import re
from typing import List, NamedTuple, Optional, Tuple

from model_language import FUNCTIONS, SIGNS, WORDS

TOKEN = re.compile(r"\s*(?:(?P<piece>[a-z0-9_.]+)|(?P<mark>:=|!=|<=|>=|[?(){},+\-*/=<>$~;])|(?P<other>\S))")
WORD = re.compile(r"[a-z][a-z0-9_]*")
NUMBER = re.compile(r"(?:\d{1,10}(?:\.\d*)?|\.\d+)")
COMPARISONS = ("=", "!=", "<", "<=", ">", ">=")


class Token(NamedTuple):
    """A token: word, number or mark, and its place in the text."""

    kind: str
    text: str
    at: int


class Slip(Exception):
    """The first place where a text is no rule, and why: what was looked for, and the number of the token there."""

    def __init__(self, why: str, at: int) -> None:
        super().__init__(why)
        self.why, self.at = why, at


def why_no_token(piece: str) -> str:
    """Why a piece of letters, digits, underscores and points is no token."""
    if re.fullmatch(r"\d[\d.]*e\d*", piece):
        return f"a number has no exponent: {piece}"
    if re.fullmatch(r"[\d.]+[a-z_]\w*", piece):
        return f"a number and letters stand without a blank, and no unit stands behind a number: {piece}"
    if re.fullmatch(r"\d{11,}(\.\d*)?", piece):
        return f"a number has at most ten digits before its point: {piece}"
    return f"{piece} is neither a word nor a number"


def pieces_of(piece: str, at: int) -> List[Token]:
    """The tokens of a piece: a word, a number, or a word and a number that begins with a point."""
    word = WORD.match(piece)
    rest = piece[word.end() :] if word else piece
    if rest and (not NUMBER.fullmatch(rest) or word and not rest.startswith(".")):
        raise Slip(why_no_token(piece), at)
    tokens = [Token("word", word[0], at)] if word else []
    return tokens + ([Token("number", rest, at + len(piece) - len(rest))] if rest else [])


def tokens_of(text: str) -> List[Token]:
    """The tokens of a text in small letters; a Slip at the first piece that is none, at its place in the text."""
    tokens: List[Token] = []
    for found in TOKEN.finditer(text.rstrip()):
        if found["other"]:
            instead = dict(SIGNS).get(found["other"], "")
            raise Slip(
                f"no rule has the sign {found['other']}" + (f": {instead}" if instead else ""), found.start("other")
            )
        if found["mark"]:
            tokens.append(Token("mark", found["mark"], found.start("mark")))
        else:
            tokens += pieces_of(found["piece"], found.start("piece"))
    return tokens


class Reading:
    """A reading of tokens by the grammar, from left to right; it stops by a Slip."""

    def __init__(self, tokens: List[Token]) -> None:
        self.tokens, self.at, self.part = tokens, 0, "value"

    def is_next(self, *texts: str) -> bool:
        """Whether one of these texts stands next."""
        return self.at < len(self.tokens) and self.tokens[self.at].text in texts

    def takes(self, *texts: str) -> bool:
        """Takes the next token if it is one of these."""
        if not self.is_next(*texts):
            return False
        self.at += 1
        return True

    def stop(self, wanted: str) -> None:
        """Ends the reading here."""
        found = self.tokens[self.at].text if self.at < len(self.tokens) else "the end of the rule"
        raise Slip(f"in the {self.part}: {wanted} is wanted, and {found} stands there", self.at)

    def need(self, text: str, wanted: str = "") -> None:
        """Takes this token, or stops."""
        if not self.takes(text):
            self.stop(wanted or text)

    def word(self, wanted: str) -> str:
        """Takes a word, or stops."""
        if self.at >= len(self.tokens) or self.tokens[self.at].kind != "word":
            self.stop(wanted)
        self.at += 1
        return self.tokens[self.at - 1].text

    def takes_number(self) -> bool:
        """Takes a number with or without a sign."""
        signed = self.at + self.is_next("+", "-")
        if signed >= len(self.tokens) or self.tokens[signed].kind != "number":
            return False
        self.at = signed + 1
        return True

    def rule(self) -> None:
        """rule = value [ sets ] delay '{' expr '}'"""
        self.value()
        if self.is_next("{") and self.sees_set():
            self.part = "sets"
            self.assigns("$")
        self.part = "delay"
        self.braced_or_number("a number of milliseconds, or an expression in braces")
        self.part = "condition"
        self.need("{", "{ before the condition")
        self.expression()
        self.need("}", "} behind the condition")
        self.part = "rule"
        if self.at < len(self.tokens):
            self.stop("nothing more behind the condition")

    def sees_set(self) -> bool:
        """Whether the brace that stands next begins sets: `{ $x :=`, or the same with a slip in its sign."""
        texts = [token.text for token in self.tokens[self.at + 1 : self.at + 4]]
        return texts[:1] == ["$"] and texts[2:3] != ["}"] and texts[2:3] in ([":="], ["="])

    def value(self) -> None:
        """value = '{' expr '}' | [ sign ] number | '?' | cell | gives"""
        texts = [token.text for token in self.tokens[self.at : self.at + 2]]
        if texts == ["{", "~"]:
            self.assigns("~")
        elif self.is_next("("):
            self.cell()
        elif not self.takes("?"):
            self.braced_or_number("a number, ?, a cell, or an expression in braces")

    def braced_or_number(self, wanted: str) -> None:
        """'{' expr '}' | [ sign ] number"""
        if self.takes("{"):
            self.expression()
            self.need("}")
        elif not self.takes_number():
            self.stop(wanted)

    def assigns(self, mark: str) -> None:
        """'{' mark word ':=' expr ';' { mark word ':=' expr ';' } '}'"""
        self.need("{")
        while True:
            self.need(mark)
            self.word("a word")
            self.need(":=")
            self.expression()
            self.need(";", "; behind the expression")
            if not self.is_next(mark):
                break
        self.need("}")

    def expression(self) -> None:
        """expr and its levels; here operators of one level are read alike, as a text with a rule is one rule at most."""
        self.conjunction()
        while self.takes("imp", "eqv", "or", "xor"):
            self.conjunction()

    def conjunction(self) -> None:
        """conj = neg { 'and' neg }; a comparison isn't joined to another."""
        while True:
            while self.takes("not"):
                pass
            self.sum()
            if self.takes(*COMPARISONS):
                self.sum()
            if not self.takes("and"):
                break

    def sum(self) -> None:
        """Signed primaries, joined by + - * and /."""
        while True:
            while self.takes("+", "-"):
                pass
            self.primary()
            if not self.takes("+", "-", "*", "/"):
                break

    def primary(self) -> None:
        """A number, a word, a cell, a variable, a call, or an expression in parentheses."""
        if self.takes("$"):
            self.word("the name of a variable")
        elif self.is_next("(") and self.is_cell():
            self.cell()
        elif self.takes("("):
            self.expression()
            self.need(")")
        elif not self.takes("?") and not self.takes_plain_number():
            self.call(self.word("a number, a cell, a variable or a function"))

    def takes_plain_number(self) -> bool:
        """Takes a number without a sign."""
        is_number = self.at < len(self.tokens) and self.tokens[self.at].kind == "number"
        self.at += is_number
        return is_number

    def call(self, word: str) -> None:
        """What follows a word: the arguments of a function, as many as it takes."""
        if word == "portvalue":
            for text in ("(", "thisport", ")"):
                self.need(text)
        elif word in FUNCTIONS:
            self.need("(", f"( behind {word}")
            for k in range(FUNCTIONS[word]):
                if k:
                    self.need(",", f"a comma, since {word} takes {FUNCTIONS[word]} arguments,")
                self.expression()
            self.need(")", f") behind {FUNCTIONS[word]} argument{'s' * (FUNCTIONS[word] > 1)} of {word}")
        elif word in ("imp", "eqv", "or", "xor", "and", "not", "thisport"):
            self.at -= 1
            self.stop("a number, a cell, a variable or a function")

    def is_cell(self) -> bool:
        """Whether the parenthesis that stands next begins a cell: whole numbers with commas between them."""
        text = " ".join(token.text for token in self.tokens[self.at : self.at + 9])
        return bool(re.match(r"\( (?:[+-] )?\d+ ,", text))

    def cell(self) -> None:
        """cell = '(' int ',' int [ ',' int ] ')' [ '~' word ]"""
        self.need("(")
        self.coordinate()
        self.need(",", "a comma between coordinates")
        self.coordinate()
        if self.takes(","):
            self.coordinate()
        self.need(")", ") behind the coordinates")
        if self.takes("~"):
            self.word("the name of a port")

    def coordinate(self) -> None:
        """A whole number with or without a sign, or a stop."""
        if not self.takes_number():
            self.stop("a coordinate")


def is_pair(tokens: List[Token], at: int, *pair: str) -> bool:
    """Whether these two marks stand side by side, before or at a place."""
    return any(tuple(token.text for token in tokens[k : k + 2]) == pair for k in (at - 1, at) if k >= 0)


PAIRS: Tuple[Tuple[Tuple[str, str], str], ...] = (
    (("=", "="), "equality is one ="),
    (("<", ">"), "unequal is written !="),
    (("=", "<"), "at most is written <="),
    (("=", ">"), "at least is written >="),
    (("*", "*"), "there is no power: write a product"),
    (("+", "="), "a variable is set by $x := $x + ..;"),
    (("-", "="), "a variable is set by $x := $x - ..;"),
    ((":=", "="), "a set or a give is written with :="),
)


def likely(tokens: List[Token], slip: Slip, part: str) -> str:
    """What the slip most likely is, seen from the tokens around its place; empty where nothing tells."""
    found = tokens[slip.at].text if slip.at < len(tokens) else ""
    pair = next((said for pair, said in PAIRS if is_pair(tokens, slip.at, *pair)), None)
    if pair:
        return pair
    if ":= is wanted" in slip.why and found == "=":
        return "a set or a give is written with :="
    if found == "," and ") behind" not in slip.why:
        return "decimals have a point"
    if "; behind" in slip.why and found == "}":
        return "a ; stands behind each set and each give, also behind the last"
    return likely_parenthesis(tokens) or likely_part(tokens, slip, part, found)


def likely_parenthesis(tokens: List[Token]) -> str:
    """Says that a parenthesis is lost, where as many are not opened as closed."""
    opening, closing = (sum(token.text == mark for token in tokens) for mark in ("(", ")"))
    if opening == closing:
        return ""
    return (
        f"a {')' if opening > closing else '('} is lost: there are {opening} opening and {closing} closing parentheses"
    )


def likely_part(tokens: List[Token], slip: Slip, part: str, found: str) -> str:
    """What the slip most likely is where a part is missing, turned round, without its braces or too long."""
    if found in COMPARISONS and "} behind" in slip.why:
        return "comparisons are joined by and: 0 < (0,0) and (0,0) < 2"
    if not found and part in ("delay", "condition"):
        return "a part is missing; a rule goes on in the next line only inside a brace"
    if found == "}" and slip.at and tokens[slip.at - 1].text == "{":
        return "the braces are empty"
    if ": ) is wanted" in slip.why and slip.at < len(tokens) and tokens[slip.at].kind == "number":
        return "coordinates and arguments are parted by commas"
    if part == "rule":
        return "sets stand before the delay" if found == "{" else "a rule ends with the brace of its condition"
    if (
        part == "condition"
        and "{ before" in slip.why
        and [token.text for token in tokens[slip.at - 2 : slip.at - 1]] in (["+"], ["-"])
    ):
        return "a value that is more than one number or cell stands in braces"
    if part == "condition" and "{ before" in slip.why:
        return "the condition stands in braces"
    if part == "delay":
        return "a value or a delay that is more than one number stands in braces"
    return ""


def gives_twice(tokens: List[Token]) -> Optional[str]:
    """A port that the gives of a rule name twice."""
    gives = [b.text for a, b, c in zip(tokens, tokens[1:], tokens[2:]) if (a.text, c.text) == ("~", ":=")]
    return next((word for k, word in enumerate(gives) if word in gives[:k]), None)


def slips_in(text: str) -> List[str]:
    """Why a text in small letters is no rule, in one or two lines; none where it is one by the grammar."""
    try:
        tokens = tokens_of(text)
    except Slip as slip:
        return [slip.why]
    reading = Reading(tokens)
    try:
        reading.rule()
    except Slip as slip:
        said = likely(tokens, slip, reading.part)
        return [slip.why, *[said] * bool(said)]
    twice = gives_twice(tokens)
    return [f"the port {twice} is given twice"] if twice else []


def unknown_words(text: str) -> List[str]:
    """The words of a text that are none of the language, names behind $ and ~ aside, in order."""
    try:
        tokens = tokens_of(text)
    except Slip:
        return []
    marks = ["", *[token.text for token in tokens]]
    words = [token.text for token, mark in zip(tokens, marks) if token.kind == "word" and mark not in ("$", "~")]
    return [word for word in words if word not in WORDS and word not in FUNCTIONS]


def names_behind(text: str, mark: str) -> List[str]:
    """The words behind a mark, $ or ~, each once."""
    return list(dict.fromkeys(re.findall(rf"\{mark}\s*([a-z]\w*)", text)))


def cells_in(text: str) -> List[str]:
    """The cells that a rule names, without blanks, each once."""
    cells = re.findall(r"\(\s*[+-]?\d+\s*,\s*[+-]?\d+\s*(?:,\s*[+-]?\d+\s*)?\)", text)
    return list(dict.fromkeys(re.sub(r"[\s+]", "", cell) for cell in cells))
