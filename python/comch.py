"""comch from Python: bases, products, operations, Bocksteins, verdicts and induced maps as plain values.

    >>> import comch
    >>> plane = comch.report([[0, 1, 2], [0, 1, 5], [0, 2, 3], [0, 3, 4], [0, 4, 5],
    ...                       [1, 2, 4], [1, 3, 4], [1, 3, 5], [2, 3, 5], [2, 4, 5]], prime=2).only
    >>> plane.ranks
    [1, 1, 1]
    >>> plane.products[1, 1].columns[0, 0]
    (1,)
    >>> plane.operations["Sq", 1, 1].columns
    [(1,)]

A complex is a list of facets, or any object with a method facets() that gives one, as Sage's complexes have; several
are a dict from names to complexes. Vertices are kept where all are whole numbers from 0 to 999,999; other vertices are
numbered in their sorted order, and what comes back has the vertices that were given. Classes are counted from 0 here.

The module runs the program: the one that the environment's COMCH names, or else the script comch beside this folder,
which builds it on first use. It takes nothing but the standard library.
"""

from __future__ import annotations

import operator
import os
import subprocess
from dataclasses import dataclass, field
from pathlib import Path

Simplex = tuple  # its vertices, in their order
Chain = dict  # the coefficient of each simplex at which it is not 0

KINDS = {
    1: ("TooLong", "the input has more than 1,048,576 bytes"),
    2: ("NotText", "the line has a byte that is not allowed"),
    3: ("BadLine", "the line is none of those that may stand there"),
    4: ("BadNumber", "a word that should be a number of at most six digits is none"),
    5: ("RepeatedVertex", "a facet has a vertex twice"),
    6: ("FacetTooWide", "a facet has more than 16 vertices"),
    7: ("TooManySimplices", "with this facet the complex has more than 100,000 simplices"),
    8: ("RepeatedName", "a complex or a map before it has this name"),
    9: ("UnknownName", "the map names a complex that does not stand before it"),
    10: ("VertexNotSent", "the map sends a vertex of its source nowhere"),
    11: ("VertexSentTwice", "the map sends this vertex twice"),
    12: ("VertexUnknown", "the source or the target of the map has no such vertex"),
    13: ("NotOrderPreserving", "the map sends the lower end of an edge above its upper end"),
    14: ("ImageNotASimplex", "the map sends a facet to what is no simplex of its target"),
    15: ("Unfinished", "the input ends too early"),
    16: ("TooManyBlocks", "there are more than eight complexes, or more than eight maps"),
    17: ("OtherPrime", "the prime is none of 2, 3 and 5"),
}
STATUS = {
    2: ("Words", "the program does not take these words"),
    4: ("Terms", "the formulas have more terms than the limit: give a higher one by terms=, up to 10**12, or ask for basis"),
    5: ("Memory", "there is not enough memory for the answer"),
    6: ("Read", "the program could not read its input"),
    7: ("Write", "the program could not write its answer"),
}


class Refused(Exception):
    """The program refused: `kind` is a word, `meaning` a sentence, and `status` the exit code.

    `line` is the line of the input that is at fault and `source` its text, where one is; `count` and `limit` are the
    counted terms and their limit, where these are at odds.
    """

    def __init__(self, status, kind, meaning, line=None, source=None, count=None, limit=None):
        where = "" if line is None else f" at line {line}" + (f" ({source})" if source else "")
        counted = "" if count is None else f" ({count} terms, and the limit is {limit})"
        super().__init__(f"{kind}{where}: {meaning}{counted}")
        self.status, self.kind, self.meaning = status, kind, meaning
        self.line, self.source, self.count, self.limit = line, source, count, limit


@dataclass
class Degree:
    """The cohomology of one degree: cocycles whose classes are a basis.

    A certificate has cochains one degree below too, whose coboundaries are a basis of the coboundaries.
    """

    classes: list[Chain] = field(default_factory=list)
    below: list[Chain] = field(default_factory=list)

    @property
    def rank(self):
        return len(self.classes)


@dataclass
class Matrix:
    """A linear map on cohomology: column j has the coordinates of the image of class j.

    A certificate has a cochain for each column: its coboundary is the image less the combination of classes.
    """

    columns: list[tuple[int, ...]] = field(default_factory=list)
    chains: list[Chain] = field(default_factory=list)


@dataclass
class Operation(Matrix):
    """An operation, from its degree to this target degree."""

    target: int = 0


@dataclass
class Product:
    """A product of two degrees: columns[i, j] has the coordinates of class i of the first times class j of the second."""

    columns: dict[tuple[int, int], tuple[int, ...]] = field(default_factory=dict)
    chains: dict[tuple[int, int], Chain] = field(default_factory=dict)


@dataclass
class Verdict:
    """Whether the Cartan formula of the operation n holds on class i of degree a and class j of degree b.

    In a certificate the coboundary of `chain` is the difference of the two sides; where the formula does not hold,
    `chain` is a cycle with which the difference pairs to `value`.
    """

    a: int
    i: int
    b: int
    j: int
    n: int
    holds: bool
    value: int | None = None
    chain: Chain | None = None


@dataclass
class Complex:
    """What is printed of a complex: degrees, products by two degrees, operations by word, number and degree, verdicts."""

    degrees: list[Degree] = field(default_factory=list)
    products: dict[tuple[int, int], Product] = field(default_factory=dict)
    operations: dict[tuple[str, int, int], Operation] = field(default_factory=dict)
    cartan: list[Verdict] = field(default_factory=list)

    @property
    def ranks(self):
        return [degree.rank for degree in self.degrees]


@dataclass
class Map:
    """What is printed of a map: the matrix that it induces in each degree, on the classes of its target."""

    source: str
    target: str
    induced: dict[int, Matrix] = field(default_factory=dict)


@dataclass
class Report:
    """The answer for a job: its complexes and maps by name, and the text as the program wrote it."""

    prime: int
    complexes: dict[str, Complex]
    maps: dict[str, Map]
    text: str

    @property
    def only(self):
        """The one complex of a job with one."""
        (one,) = self.complexes.values()
        return one


def basis(complexes, prime=2, maps=None):
    """A basis of the cohomology of each complex over the field with `prime` elements, in each degree."""
    return _report(["basis"], complexes, prime, maps)


def report(complexes, prime=2, maps=None, terms=None):
    """The bases with the matrices of products, operations and maps, and the verdicts on the Cartan formula.

    `maps` is a dict from names to triples of a source, a target (names of complexes) and a dict that sends each vertex
    of the source. `terms` is the most terms of the formulas that are summed.
    """
    return _report(["report", *_limit(terms)], complexes, prime, maps)


def certify(complexes, prime=2, maps=None, terms=None):
    """The report with the cochains that show it."""
    return _report(["certify", *_limit(terms)], complexes, prime, maps)


def bockstein(complexes, prime=2):
    """The matrices of the Bockstein by name of the complex and by degree, each on the classes of `basis`.

    There is one from each degree in which the cohomology is not zero, nor in the next.
    """
    text = _run(["bockstein"], _asked(complexes, prime, {})[0])
    found = {}
    for words in map(str.split, text.splitlines()):
        if words[0] == "complex":
            matrices = found[words[1]] = {}
        elif words[0] == "bockstein":
            matrix = matrices[int(words[1])] = Matrix()
        elif words[0] == "column":
            matrix.columns.append(tuple(map(int, words[3:])))
    return found


def check(certificate):
    """None where the text is a certificate that meets its conditions, else the condition that fails and its first line."""
    text = _run(["check"], certificate)
    if text == "yes\n":
        return None
    words = text.split()
    return int(words[1]), int(words[3])


def may(prime, degree):
    """The May element: its terms in order, each a coefficient with a surjection."""
    lines = _run(["may", str(prime), str(degree)], "").splitlines()
    terms = (line.split(" : ") for line in lines[1:-1])
    return [(int(coefficient), tuple(map(int, values.split()))) for coefficient, values in terms]


def _limit(terms):
    return [] if terms is None else ["--terms", str(terms)]


def _asked(complexes, prime, maps):
    """The input for the program, and the vertex that each number stands for in each complex."""
    named = complexes if isinstance(complexes, dict) else {"x": complexes}
    facets = {name: _facets_of(of) for name, of in named.items()}
    numbers = {name: _numbering(of) for name, of in facets.items()}
    labels = {name: {number: label for label, number in of.items()} for name, of in numbers.items()}
    return _job(facets, numbers, prime, maps), labels


def _report(words, complexes, prime, maps):
    job, labels = _asked(complexes, prime, maps or {})
    return _Reader(_run(words, job), labels).report()


def _facets_of(given):
    return [list(facet) for facet in (given.facets() if hasattr(given, "facets") else given)]


def _numbering(facets):
    """The number of each vertex."""
    vertices = list(dict.fromkeys(vertex for facet in facets for vertex in facet))
    try:
        numbers = {vertex: operator.index(vertex) for vertex in vertices}
        if all(0 <= number <= 999_999 for number in numbers.values()):
            return numbers
    except TypeError:
        pass
    try:
        vertices.sort()
    except TypeError:
        vertices.sort(key=lambda vertex: (type(vertex).__name__, str(vertex)))
    return {vertex: number for number, vertex in enumerate(vertices)}


def _job(facets, numbers, prime, maps):
    """The input for the program."""
    lines = ["comch 1", f"prime {prime}"]
    for name, of in facets.items():
        listed = (" ".join(["facet", *(str(numbers[name][vertex]) for vertex in facet)]) for facet in of)
        lines += [f"complex {name}", *listed, "end"]

    def number(name, of, vertex):
        if vertex not in numbers.get(of, {}):
            raise ValueError(f"the map {name}: {vertex!r} is no vertex of {of}")
        return numbers[of][vertex]

    for name, (source, target, sends) in maps.items():
        sent = (f"send {number(name, source, vertex)} {number(name, target, image)}" for vertex, image in sends.items())
        lines += [f"map {name} {source} {target}", *sent, "end"]
    return "\n".join([*lines, ""])


def program():
    """The program that is run."""
    return os.environ.get("COMCH") or str(Path(__file__).resolve().parent.parent / "comch")


def _run(words, text):
    ran = subprocess.run([program(), *words], input=text.encode(), stdout=subprocess.PIPE, check=False)
    said = ran.stdout.decode()
    if ran.returncode in (0, 1):  # 1 is the no of check
        return said
    if ran.returncode == 3:
        _, _, number, _, line = said.split()
        lines = text.split("\n")
        at = int(line)
        raise Refused(3, *KINDS[int(number)], at, lines[at - 1] if 0 < at <= len(lines) else None)
    if ran.returncode not in STATUS:
        raise RuntimeError(f"{program()} ended with status {ran.returncode}")
    counts = {}
    if ran.returncode == 4:
        _, _, count, _, limit = said.split()
        counts = {"count": int(count), "limit": int(limit)}
    raise Refused(ran.returncode, *STATUS[ran.returncode], **counts)


class _Reader:
    """Reads the text of a report, in each of its three forms."""

    def __init__(self, text, labels):
        self.text, self.all_labels, self.labels = text, labels, {}
        self.lines = [line.split() for line in text.splitlines()]
        self.at = 0

    def sees(self, word):
        return self.lines[self.at][0] == word

    def take(self):
        self.at += 1
        return self.lines[self.at - 1]

    def chain(self):
        """The chain on a line behind its first word."""
        terms = (word.split(":") for word in self.take()[1:] if word != "0")
        return {tuple(self.labels[int(vertex)] for vertex in simplex.split(".")): int(coefficient) for coefficient, simplex in terms}

    def chains(self, word):
        found = []
        while self.sees(word):
            found.append(self.chain())
        return found

    def columns(self):
        """The columns of a matrix or a product: the numbers before `is`, the coordinates, and the chain where there is one."""
        while self.sees("column"):
            words = self.take()
            at = words.index("is")
            place = tuple(int(word) - 1 for word in words[1:at])
            chain = self.chain() if self.sees("with") else None
            yield place, tuple(map(int, words[at + 1 :])), chain

    def matrix(self, into):
        for _, values, chain in self.columns():
            into.columns.append(values)
            if chain is not None:
                into.chains.append(chain)
        return into

    def report(self):
        self.take()
        prime = int(self.take()[1])
        complexes, maps = {}, {}
        while not self.sees("done"):
            words = self.take()
            if words[0] == "complex":
                self.labels = self.all_labels[words[1]]
                complexes[words[1]] = self.complex()
            else:
                self.labels = self.all_labels[words[2]]
                maps[words[1]] = self.map(words[2], words[3])
        return Report(prime, complexes, maps, self.text)

    def complex(self):
        made = Complex()
        while not self.sees("end"):
            words = self.take()
            if words[0] == "degree":
                below = self.chains("below")
                made.degrees.append(Degree(self.chains("class"), below))
            elif words[0] == "product":
                of = made.products[int(words[1]), int(words[2])] = Product()
                for place, values, chain in self.columns():
                    of.columns[place] = values
                    if chain is not None:
                        of.chains[place] = chain
            elif words[0] == "operation":
                made.operations[words[1], int(words[2]), int(words[4])] = self.matrix(Operation(target=int(words[6])))
            elif words[0] == "cartan":
                made.cartan.append(self.verdict(words[1:]))
        self.take()
        return made

    def verdict(self, words):
        a, i, b, j, n = map(int, words[:5])
        has_chain = self.sees("with") or self.sees("cycle")
        value = int(words[6]) if words[5] == "no" else None
        return Verdict(a, i - 1, b, j - 1, n, words[5] == "yes", value, self.chain() if has_chain else None)

    def map(self, source, target):
        made = Map(source, target)
        while not self.sees("end"):
            words = self.take()
            if words[0] == "induced":
                made.induced[int(words[1])] = self.matrix(Matrix())
        self.take()
        return made
