#!/usr/bin/env python3
"""Checks a certificate by the definitions alone: nothing of comch is used, and nothing is eliminated.

usage: check_certificate.py < CERTIFICATE

It prints `yes`, or `no C line L` with the least condition that fails and the first line where it does. The
spelling is that of docs/OUTPUT.md, and the conditions and definitions are those of docs/MATHEMATICS.md: cochains and
their coboundary, interval cuts and their sign, May elements by table reduction, the operations with their constants. It
goes over all cuts, and is slow.
"""

import re
import sys
from collections import defaultdict
from functools import lru_cache
from itertools import combinations, product
from math import comb, factorial
from types import SimpleNamespace as Record

NUMBER = re.compile(r"0|[1-9][0-9]*")
NAME = re.compile(r"[A-Za-z][A-Za-z0-9_-]{0,31}")


class No(Exception):
    """A condition that fails, with its line."""


def ask(holds, condition, line):
    if not holds:
        raise No(condition, line)


# ---- reading: each line is what the grammar has at its place, or the text is no certificate


class Text:
    def __init__(self, text):
        self.lines, self.at = text.split("\n"), 0

    def refuse(self):
        raise No(0, self.at + 1)

    def line(self):
        """The words of the next line; none where the text ends, or ends without a line end."""
        return self.lines[self.at].split(" ") if self.at + 1 < len(self.lines) else []

    def starts(self, *words):
        return self.line()[: len(words)] == list(words)

    def take(self, *form):
        """Takes a line of this form: a word stands for itself, and a function reads one word; `...` as last takes all the rest."""
        words, values = self.line(), []
        rest = form[-1] is ...
        if not words or (len(words) < len(form) - 1 if rest else len(words) != len(form)):
            self.refuse()
        for word, want in zip(words, form[:-1] if rest else form):
            if callable(want):
                values.append(self.read(want, word))
            elif word != want:
                self.refuse()
        self.at += 1
        return values + ([words[len(form) - 1 :]] if rest else [])

    def read(self, reader, word):
        value = reader(word)
        if value is None:
            self.refuse()
        return value


def number(word, most=2**32 - 1):
    return int(word) if NUMBER.fullmatch(word) and int(word) <= most else None


def name(word):
    return word if NAME.fullmatch(word) else None


def ascends(items):
    return all(a < b for a, b in zip(items, items[1:]))


def simplex(words):
    vertices = [number(word, 999_999) for word in words]
    return tuple(vertices) if None not in vertices and vertices and ascends(vertices) else None


def chain(p, words):
    """The terms of a chain by simplex, in order."""
    if words == ["0"]:
        return {}
    terms = []
    for word in words:
        coefficient, colon, vertices = word.partition(":")
        terms.append((simplex(vertices.split(".")), number(coefficient, p - 1) if colon else None))
    if not terms or any(s is None or not c for s, c in terms) or not ascends([s for s, _ in terms]):
        return None
    return dict(terms)


def read_certificate(text):
    t = Text(text)
    t.take("comch", "certificate", "1")
    (p,) = t.take("prime", lambda w: int(w) if w in ("2", "3", "5") else None)

    def read_whole(reader, *head):
        """A line with fields and then a list that is read as a whole."""
        *values, words = t.take(*head, ...)
        value = reader(words)
        if value is None:
            t.at -= 1
            t.refuse()
        return [t.at, *values, value]

    def chains(word, count=None):
        found = []
        while len(found) != count if count is not None else t.starts(word):
            line, terms = read_whole(lambda words: chain(p, words), word)
            found.append(Record(line=line, terms=terms))
        return found

    def values(words):
        found = [number(word, p - 1) for word in words]
        return None if None in found else found

    def columns(numbers):
        """Columns, each with the chain under it; `numbers(k)` reads the numbers of the k-th."""
        found = []
        while t.starts("column"):
            line, *ij, entries = read_whole(values, "column", *numbers(len(found) + 1), "is")
            found.append(Record(line=line, ij=tuple(ij), values=entries, primitive=chains("with", 1)[0].terms))
        return found

    def block(word, *form, numbers=lambda k: (str(k),)):
        fields = t.take(word, *form)
        return Record(line=t.at, fields=tuple(fields), columns=columns(numbers))

    def cartan():
        words = t.line()
        fields = [number] * 5
        if words[6:7] == ["yes"]:
            *key, value = *t.take("cartan", *fields, "yes"), None
        else:
            *key, value = t.take("cartan", *fields, "no", lambda w: number(w, p - 1) or None)
        line = t.at
        return Record(line=line, fields=tuple(key), value=value, terms=chains("with" if value is None else "cycle", 1)[0].terms)

    def many(word, reader):
        found = []
        while t.starts(word):
            found.append(reader())
        return found

    def degree(n):
        (rank,) = t.take("degree", str(n), "rank", number)
        return Record(line=t.at, rank=rank, below=chains("below"), classes=chains("class", rank))

    def read_complex():
        c = Record(name=t.take("complex", name)[0], line=t.at, facets=[], degrees=[])
        while t.starts("facet"):
            line, facet = read_whole(simplex, "facet")
            c.facets.append(Record(line=line, simplex=facet))
        while t.starts("degree"):
            c.degrees.append(degree(len(c.degrees)))
        c.products = many("product", lambda: block("product", number, number, numbers=lambda k: (number, number)))
        word = lambda w: w if w in ("Sq", "P", "bP") else None
        c.operations = many("operation", lambda: block("operation", word, number, "from", number, "to", number))
        c.cartans = many("cartan", cartan)
        t.take("end")
        c.end = t.at
        return c

    def read_map():
        m = Record(**dict(zip(("name", "source", "target"), t.take("map", name, name, name))), line=t.at, sends=[])
        vertex = lambda w: number(w, 999_999)
        while t.starts("send"):
            m.sends.append(Record(**dict(zip(("vertex", "image"), t.take("send", vertex, vertex))), line=t.at))
        m.induced = many("induced", lambda: block("induced", number))
        t.take("end")
        m.end = t.at
        return m

    complexes, maps = many("complex", read_complex), many("map", read_map)
    t.take("done")
    if t.lines[t.at :] != [""]:
        t.refuse()
    return Record(prime=p, complexes=complexes, maps=maps, done=t.at)


# ---- complexes, chains and cochains


def faces(s):
    return [s[:i] + s[i + 1 :] for i in range(len(s))]


def coboundary(p, c, d):
    """The coboundary of the cochain d on the complex c, as its values that are not 0."""
    above = {s for t in d for s in c.above[t]}
    found = {s: sum((-1) ** i * d.get(f, 0) for i, f in enumerate(faces(s))) % p for s in above}
    return {s: v for s, v in found.items() if v}


def boundary(p, terms):
    found = defaultdict(int)
    for s, coefficient in terms.items():
        for i, f in enumerate(faces(s) if len(s) > 1 else []):
            found[f] += (-1) ** i * coefficient
    return {s: v % p for s, v in found.items() if v % p}


def total(p, *scaled):
    """The sum of cochains, each with its factor."""
    found = defaultdict(int)
    for factor, d in scaled:
        for s, value in d.items():
            found[s] += factor * value
    return {s: v % p for s, v in found.items() if v % p}


# ---- surjections, cuts and May elements


@lru_cache(maxsize=None)
def may_element(p, d):
    """The May element of degree d: surjections with their coefficients."""
    found = defaultdict(int)
    for powers in product(range(p), repeat=d // 2):
        exponents = [0] + [1] * (d % 2) + [e for r in powers for e in (r, r + 1)]
        rows = [[(i + e) % p + 1 for i in range(p)] for e in exponents]
        for bars in combinations(range(1, p + d), d):
            lengths = [b - a for a, b in zip((0, *bars), (*bars, p + d))]
            u, gone = [], set()
            for row, length in zip(rows, lengths):
                taken = [v for v in row if v not in gone][:length]
                gone.update(taken[:-1])
                u += taken
            if all(a != b for a, b in zip(u, u[1:])):
                found[tuple(u)] += 1
    return {u: coefficient for u, coefficient in found.items() if coefficient}


def cuts(n, pieces):
    """All cuts of 0..n into intervals that share their ends."""
    for inner in combinations(range(n + pieces - 1), pieces - 1):
        yield (0, *(b - i for i, b in enumerate(inner)), n)


def cut_faces(u, cut):
    found = [[] for _ in range(max(u))]
    for value, low, high in zip(u, cut, cut[1:]):
        found[value - 1] += range(low, high + 1)
    return found


def cut_sign(u, cut):
    """The parity of the inversions from the caesuras and edges to the gaps of the faces, one after the other."""
    caesuras = [i for i, v in enumerate(u) if v in u[i + 1 :]]
    word = []
    for value in range(1, max(u) + 1):
        for i in (i for i, v in enumerate(u) if v == value):
            word += [len(caesuras) + e for e in range(cut[i], cut[i + 1])]
            word += [caesuras.index(i)] if i in caesuras else []
    return (-1) ** sum(a > b for a, b in combinations(word, 2))


@lru_cache(maxsize=None)
def live_cuts(u, degrees):
    """The faces and signs of the cuts whose faces have these degrees and repeat no place."""
    n = sum(degrees) - (len(u) - max(u))
    found = [(cut_faces(u, cut), cut_sign(u, cut)) for cut in cuts(n, len(u))] if n >= 0 else []
    return [(f, sign) for f, sign in found if all(ascends(face) and len(face) == q + 1 for face, q in zip(f, degrees))]


def value_of(p, c, u, cochains, degrees):
    """The value of the surjection u on cochains of these degrees."""
    n = sum(degrees) - (len(u) - max(u))
    found = {}
    for s in c.simplices[n] if 0 <= n < len(c.simplices) else []:
        value = 0
        for parts, sign in live_cuts(u, degrees):
            for part, d in zip(parts, cochains):
                sign *= d.get(tuple(s[i] for i in part), 0)
            value += sign
        if value % p:
            found[s] = value % p
    return found


def may_operation(p, c, d, cochain, q):
    return total(p, *((k, value_of(p, c, u, [cochain] * p, (q,) * p)) for u, k in may_element(p, d).items()))


# ---- operations


def is_defined(p, q, op):
    word, k = op
    return k <= q if word == "Sq" and p == 2 else p > 2 and (word == "P" and 2 * k <= q or word == "bP" and 2 * k < q)


def target(p, q, op):
    word, k = op
    return q + k if word == "Sq" else q + 2 * k * (p - 1) + (word == "bP")


def element_degree(p, q, op):
    word, k = op
    return q - k if word == "Sq" else (q - 2 * k) * (p - 1) - (word == "bP")


def operation(p, c, op, cochain, q):
    word, s = op
    result = may_operation(p, c, element_degree(p, q, op), cochain, q)
    if word == "Sq":
        return result
    m = (p - 1) // 2
    constant = (-1) ** (s + m * (q * (q - 1) // 2)) * pow(factorial(m), -q, p)
    return total(p, (constant if word == "P" else -constant, result))


def cup(p, c, x, a, y, b):
    return value_of(p, c, (1, 2), [x, y], (a, b))


def cartan_op(p, n):
    return ("Sq" if p == 2 else "P", n)


def cartan_pairs(p, a, b, n):
    return [(i, n - i) for i in range(n + 1) if is_defined(p, a, cartan_op(p, i)) and is_defined(p, b, cartan_op(p, n - i))]


def cartan_difference(p, c, x, a, y, b, n):
    whole = operation(p, c, cartan_op(p, n), cup(p, c, x, a, y, b), a + b)
    terms = [(1, whole)]
    for i, j in cartan_pairs(p, a, b, n):
        left, right = operation(p, c, cartan_op(p, i), x, a), operation(p, c, cartan_op(p, j), y, b)
        terms.append((-1, cup(p, c, left, target(p, a, cartan_op(p, i)), right, target(p, b, cartan_op(p, j)))))
    return total(p, *terms)


# ---- what is expected for given ranks


def live(ranks, *degrees):
    return all(n < len(ranks) and ranks[n] for n in degrees)


def live_products(ranks):
    return [(a, b) for a in range(len(ranks)) for b in range(len(ranks)) if live(ranks, a, b, a + b)]


def live_operations(p, ranks):
    words = ("Sq",) if p == 2 else ("P", "bP")
    ops = [(q, (word, k)) for q in range(len(ranks)) for k in range(q + 1) for word in words]
    return [(*op, q, target(p, q, op)) for q, op in ops if is_defined(p, q, op) and live(ranks, q, target(p, q, op))]


def live_lines(p, ranks):
    for a, b in product(range(len(ranks)), repeat=2):
        for i, j, n in product(range(1, ranks[a] + 1), range(1, ranks[b] + 1), range(a + b + 1)):
            if is_defined(p, a + b, cartan_op(p, n)) and live(ranks, target(p, a + b, cartan_op(p, n))):
                yield (a, i, b, j, n)


def counted_terms(p, complexes):
    """The numbers that are summed for the limit."""
    elements, later = set(), []
    for c in complexes:
        ranks = [d.rank for d in c.degrees]
        applied = [(ranks[q], [(q, (word, k))]) for word, k, q, _ in live_operations(p, ranks)]
        for a, _, b, _, n in live_lines(p, ranks):
            pairs = [((a, cartan_op(p, i)), (b, cartan_op(p, j))) for i, j in cartan_pairs(p, a, b, n)]
            applied.append((1, [(a + b, cartan_op(p, n)), *(op for pair in pairs for op in pair)]))
        for times, operations in applied:
            elements |= {element_degree(p, q, op) for q, op in operations}
            later.append((c, times, operations))
    for d in sorted(elements):
        yield p ** (d // 2) * comb(p + d - 1, d)
    for c, times, operations in later:
        size = lambda n: len(c.simplices[n]) if n < len(c.simplices) else 0
        yield times * sum(
            size(target(p, q, op)) * sum(len(live_cuts(u, (q,) * p)) for u in may_element(p, element_degree(p, q, op)))
            for q, op in operations
        )


# ---- the conditions


def check_blocks(report):
    """Condition 1: the complexes and maps are blocks of a job."""
    known = {}
    for c in report.complexes:
        ask(len(known) < 8 and c.name not in known, 1, c.line)
        known[c.name] = c
        found = set()
        for facet in c.facets:
            ask(len(facet.simplex) <= 16, 1, facet.line)
            found.update(s for k in range(1, len(facet.simplex) + 1) for s in combinations(facet.simplex, k))
            ask(len(found) <= 100_000, 1, facet.line)
        c.simplices = [sorted(s for s in found if len(s) == n + 1) for n in range(max(map(len, found), default=0))]
        c.above = defaultdict(list)
        for s in found:
            for f in faces(s):
                c.above[f].append(s)
        c.found = found
    names = set(known)
    for k, m in enumerate(report.maps):
        ask(k < 8 and m.name not in names and m.source in known and m.target in known, 1, m.line)
        names.add(m.name)
        source, goal, m.to = known[m.source], known[m.target], {}
        m.between = source, goal
        for send in m.sends:
            ask((send.vertex,) in source.found and (send.image,) in goal.found and send.vertex not in m.to, 1, send.line)
            m.to[send.vertex] = send.image
        ask(all(v in m.to for (v,) in (s for s in source.found if len(s) == 1)), 1, m.end)
        ask(all(m.to[s[0]] <= m.to[s[1]] for s in source.found if len(s) == 2), 1, m.end)
        ask(all(tuple(sorted({m.to[v] for v in s})) in goal.found for s in source.found), 1, m.end)


def is_listed(c, terms, n):
    """Whether all terms are simplices of degree n."""
    return all(s in c.found and len(s) == n + 1 for s in terms)


def check_bases(p, c):
    """Conditions 2 to 4: coboundaries and classes, with different least simplices."""
    used = [set() for _ in c.degrees]
    for n, d in enumerate(c.degrees):
        for listed in d.below:
            ask(n < len(c.simplices) and n > 0 and is_listed(c, listed.terms, n - 1), 2, listed.line)
            least = min(coboundary(p, c, listed.terms), default=None)
            ask(least is not None and least not in used[n], 2, listed.line)
            used[n].add(least)
    ask(len(c.degrees) == len(c.simplices), 2, c.end)
    return used


def check_classes(p, c, used):
    for n, d in enumerate(c.degrees):
        for z in d.classes:
            ask(is_listed(c, z.terms, n) and not coboundary(p, c, z.terms), 3, z.line)
            yield n, z, used


def check_leads(listed):
    for n, z, used in listed:
        ask(z.terms and min(z.terms) not in used[n], 4, z.line)
        used[n].add(min(z.terms))


def failures_of_counts(p, report):
    """The lines at which a part of condition 5 fails."""

    def kinds(blocks, expected, end):
        for block, want in zip(blocks, [*expected, *[None] * len(blocks)]):
            if block.fields != want:
                yield block.line
        if len(blocks) < len(expected):
            yield end

    def columns(block, keys, height, end):
        for k, column in enumerate(block.columns):
            if k >= len(keys) or column.ij != keys[k] or len(column.values) != height:
                yield column.line
        if len(block.columns) < len(keys):
            yield end

    rank = lambda ranks, n: ranks[n] if n < len(ranks) else 0
    singles = lambda count: [()] * count
    for c in report.complexes:
        ranks = [d.rank for d in c.degrees]
        for n, d in enumerate(c.degrees):
            after = len(c.degrees[n + 1].below) if n + 1 < len(c.degrees) else 0
            if len(c.simplices[n]) != len(d.below) + d.rank + after:
                yield d.line
        yield from kinds(c.products, live_products(ranks), c.end)
        yield from kinds(c.operations, live_operations(p, ranks), c.end)
        yield from kinds(c.cartans, list(live_lines(p, ranks)), c.end)
        for block in c.products:
            a, b = block.fields
            pairs = list(product(range(1, rank(ranks, a) + 1), range(1, rank(ranks, b) + 1)))
            yield from columns(block, pairs, rank(ranks, a + b), c.end)
        for block in c.operations:
            yield from columns(block, singles(rank(ranks, block.fields[2])), rank(ranks, block.fields[3]), c.end)
    for m in report.maps:
        source, goal = ([d.rank for d in c.degrees] for c in m.between)
        expected = [(q,) for q in range(len(source)) if live(source, q) and live(goal, q)]
        yield from kinds(m.induced, expected, m.end)
        for block in m.induced:
            (q,) = block.fields
            yield from columns(block, singles(rank(goal, q)), rank(source, q), m.end)


def check_counts(p, report):
    lines = list(failures_of_counts(p, report))
    ask(not lines, 5, min(lines, default=0))
    running = 0
    for count in counted_terms(p, report.complexes):
        running += count
        ask(running <= 10**12, 5, report.done)


def check_column(p, c, n, column, result, condition):
    """The result is the sum of the values times the classes plus the coboundary of the chain under the column."""
    classes = [z.terms for z in c.degrees[n].classes]
    ask(is_listed(c, column.primitive, n - 1) if n else not column.primitive, condition, column.line)
    right = total(p, (1, coboundary(p, c, column.primitive)), *zip(column.values, classes))
    ask(total(p, (1, result), (-1, right)) == {}, condition, column.line)


def check_tables(p, c):
    """Condition 6: the columns of products and operations."""
    classes = lambda n: [z.terms for z in c.degrees[n].classes]
    for block in c.products:
        a, b = block.fields
        for column in block.columns:
            i, j = column.ij
            check_column(p, c, a + b, column, cup(p, c, classes(a)[i - 1], a, classes(b)[j - 1], b), 6)
    for block in c.operations:
        word, k, q, n = block.fields
        for column, z in zip(block.columns, classes(q)):
            check_column(p, c, n, column, operation(p, c, (word, k), z, q), 6)


def check_map(p, m):
    """Condition 7: the columns of a map."""
    source, goal = m.between
    for block in m.induced:
        (q,) = block.fields
        for column, z in zip(block.columns, goal.degrees[q].classes):
            images = ((s, tuple(m.to[v] for v in s)) for s in source.simplices[q])
            pulled = {s: z.terms[t] for s, t in images if t in z.terms}
            check_column(p, source, q, column, pulled, 7)


def check_verdicts(p, c):
    """Condition 8: the Cartan lines."""
    for line in c.cartans:
        a, i, b, j, n = line.fields
        x, y = c.degrees[a].classes[i - 1].terms, c.degrees[b].classes[j - 1].terms
        degree = target(p, a + b, cartan_op(p, n))
        difference = cartan_difference(p, c, x, a, y, b, n)
        if line.value is None:
            ask(is_listed(c, line.terms, degree - 1) if degree else not line.terms, 8, line.line)
            ask(coboundary(p, c, line.terms) == difference, 8, line.line)
        else:
            ask(is_listed(c, line.terms, degree) and not boundary(p, line.terms), 8, line.line)
            ask(sum(v * difference.get(s, 0) for s, v in line.terms.items()) % p == line.value, 8, line.line)


def check(text):
    report = read_certificate(text)
    p = report.prime
    check_blocks(report)
    used = [check_bases(p, c) for c in report.complexes]
    listed = [list(check_classes(p, c, u)) for c, u in zip(report.complexes, used)]
    for classes in listed:
        check_leads(classes)
    check_counts(p, report)
    for c in report.complexes:
        check_tables(p, c)
    for m in report.maps:
        check_map(p, m)
    for c in report.complexes:
        check_verdicts(p, c)


def main():
    try:
        check(sys.stdin.buffer.read().decode("latin-1"))
    except No as no:
        condition, line = no.args
        print(f"no {condition} line {line}")
        sys.exit(1)
    print("yes")


if __name__ == "__main__":
    main()
