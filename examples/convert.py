#!/usr/bin/env python3
"""Makes an input of comch from a list of facets.

usage: convert.py [--prime P] [--name NAME] [--order keep|given|sorted] [--labels FILE] [FILE]

Reads FILE, or standard input. These forms are taken:

    a list of lists in brackets of any kind, as Sage (K.facets()), GAP, lists of Regina's Python and the manifold page
    have it; [ 1 .. 4 ] is GAP's [ 1, 2, 3, 4 ]:
        {(0, 1, 2), (0, 1, 3)}    [ [ 1, 2, 3 ], [ 1, 2, 4 ] ]    name=[[1,2,3],[1,2,4]];
    lists in brackets one after the other, as polymake has them (print $c->FACETS):
        {0 1 2}
        {0 1 3}
    the same with filtration values, as GUDHI has them (list(tree.get_filtration()), or printed line by line):
        [([0, 1, 2], 0.5), ([0, 1], 0.5)]    [0, 1, 2] -> 0.50
    lines of labels with blanks or commas between them:
        0 1 2

What follows a # that begins a word is skipped. A label is a word, a quoted text, or a list in brackets of its own, as in
a product of complexes. Lines of labels that are not all numbers are taken with --order given or --order sorted alone.
Vertices are numbered

    keep      as they are, where all labels are numbers of at most six digits (the default there)
    given     from 0, in the order in which they first appear
    sorted    from 0, in the order of the labels: numbers by value, other labels as texts (else the default)

Simplices that are faces of others with one vertex more are left out. The classes and the operations on cochains depend
on the order of the vertices; ranks, and the matrices up to a change of bases, do not. With --labels the numbers and
labels are written to a file of their own, a line for each vertex.
"""

import argparse
import re
import sys

COMMENT = r"(?<![^\s,;\[\](){}])\#[^\n]*"
TOKEN = re.compile(rf"""(?P<skip>[\s,;]+|{COMMENT})|(?P<open>[\[({{])|(?P<close>[\])}}])|'(?P<single>[^'\n]*)'|"(?P<double>[^"\n]*)"|(?P<word>[^\s,;\[\](){{}}'"]+)|(?P<bad>.)""")
CLOSES = {"[": "]", "(": ")", "{": "}"}
NAME = re.compile(r"[A-Za-z][A-Za-z0-9_-]{0,31}")
FLOAT = re.compile(r"[+-]?(\d+\.\d*|\.\d+|\d+(?=[eE]))([eE][+-]?\d+)?|[+-]?inf|nan")
MOST_VERTICES, MOST_NUMBER = 16, 999_999


class Fault(Exception):
    """What is wrong with the text, and in which line."""

    def __init__(self, line, what):
        super().__init__(f"line {line}: {what}")


class Group:
    """A list in brackets, with the line in which it begins."""

    def __init__(self, line, bracket):
        self.line, self.bracket, self.items = line, bracket, []

    def label(self):
        return "(" + ",".join(label_of(item) for item in self.items) + ")"

    def labels(self):
        """The labels in the list; GAP writes a row of neighbouring numbers as [ first .. last ]."""
        if len(self.items) == 3 and self.items[1] == ".." and all(re.fullmatch(r"\d{1,6}", label_of(end)) for end in self.items[::2]):
            return [str(number) for number in range(int(self.items[0]), int(self.items[2]) + 1)]
        return [label_of(item) for item in self.items]

    def is_list_of_lists(self):
        return bool(self.items) and all(isinstance(item, Group) for item in self.items)


def label_of(item):
    return item.label() if isinstance(item, Group) else item


def groups_in(text):
    """The outermost lists in brackets. What stands outside of them is skipped."""
    line, stack, found = 1, [], []
    for token in TOKEN.finditer(text):
        kind, value = token.lastgroup, token.group(token.lastgroup)
        if kind == "open":
            stack.append(Group(line, value))
        elif kind == "close":
            if not stack or CLOSES[stack[-1].bracket] != value:
                raise Fault(line, f"a {value} that closes nothing")
            group = stack.pop()
            (stack[-1].items if stack else found).append(group)
        elif kind == "bad":
            raise Fault(line, f"a quote that is not closed: {value}")
        elif kind != "skip" and stack:
            stack[-1].items.append(value)
        line += token.group().count("\n")
    if stack:
        raise Fault(stack[-1].line, f"a {stack[-1].bracket} that is not closed")
    return found


def has_value(item):
    """Whether this is a simplex with a filtration value, which has a point, an exponent, or is infinite."""
    if not isinstance(item, Group) or len(item.items) != 2:
        return False
    simplex, value = item.items
    return isinstance(simplex, Group) and not isinstance(value, Group) and bool(FLOAT.fullmatch(value))


def bracketed_facets(text):
    groups = groups_in(text)
    if len(groups) == 1 and groups[0].is_list_of_lists():
        groups = groups[0].items
        if len(groups) == 1 and groups[0].is_list_of_lists():
            raise Fault(groups[0].line, "one list of lists within a list: a facet whose labels are lists, or a complex? Take the outer brackets off, or add a facet")
    elif not all(has_value(group) for group in groups):
        for group in groups:
            if any(isinstance(item, Group) for item in group.items):
                raise Fault(group.line, "a list of lists beside another list, or beside a label: give the one list of facets alone")
    if groups and all(has_value(group) for group in groups):
        groups = [group.items[0] for group in groups]
    for group in groups:
        if len({isinstance(item, Group) for item in group.items}) > 1:
            raise Fault(group.line, "a label that is a list beside one that is none")
    return [(group.line, group.labels()) for group in groups]


def plain_facets(text, order):
    lines = ((number, re.sub(COMMENT, "", line).replace(",", " ").split()) for number, line in enumerate(text.split("\n"), 1))
    facets = [(number, labels) for number, labels in lines if labels]
    for number, labels in facets:
        for label in labels:
            if order is None and not re.fullmatch(r"-?\d+", label):
                raise Fault(number, f"{label} is no number; --order given or --order sorted takes lines of any labels")
    return facets


def facets_in(text, order):
    """The facets with the lines in which they begin, as lists of labels."""
    return bracketed_facets(text) if re.search(r"[\[({]", re.sub(COMMENT, "", text)) else plain_facets(text, order)


def without_faces(facets):
    """Those that are no face of another with one vertex more. Of all simplices of a complex its facets are left."""
    faces = {frozenset(labels) - {label} for _, labels in facets for label in labels}
    return [(line, labels) for line, labels in facets if frozenset(labels) not in faces]


def check(facets):
    if not facets:
        raise Fault(1, "no facets")
    for line, labels in facets:
        if not labels:
            raise Fault(line, "a facet without vertices")
        if len(labels) > MOST_VERTICES:
            raise Fault(line, f"a facet with {len(labels)} vertices; at most {MOST_VERTICES} are taken")
        for k, label in enumerate(labels):
            if label in labels[:k]:
                raise Fault(line, f"the vertex {label} twice in one facet")


def numbering(facets, order):
    """The number of each label."""
    labels = list(dict.fromkeys(label for _, facet in facets for label in facet))
    numbers = all(re.fullmatch(r"\d{1,6}", label) for label in labels)
    if numbers and len({int(label) for label in labels}) < len(labels):
        numbers = False
    order = order or ("keep" if numbers else "sorted")
    if order == "keep":
        if not numbers:
            raise Fault(facets[0][0], "--order keep, and not all labels are different numbers of at most six digits")
        return {label: int(label) for label in labels}
    if order == "sorted":
        labels.sort(key=lambda label: (0, int(label), "") if re.fullmatch(r"-?\d+", label) else (1, 0, label))
    if len(labels) > MOST_NUMBER + 1:
        raise Fault(facets[0][0], f"{len(labels)} vertices; at most {MOST_NUMBER + 1} are taken")
    return {label: number for number, label in enumerate(labels)}


def input_of(facets, numbers, prime, name):
    lines = ["comch 1", f"prime {prime}", f"complex {name}"]
    lines += ["facet " + " ".join(map(str, sorted(numbers[label] for label in facet))) for _, facet in facets]
    return "\n".join([*lines, "end", ""])


def main():
    parser = argparse.ArgumentParser(description=__doc__, formatter_class=argparse.RawDescriptionHelpFormatter)
    parser.add_argument("file", nargs="?", default="-")
    parser.add_argument("--prime", choices=["2", "3", "5"], default="2")
    parser.add_argument("--name", default="x")
    parser.add_argument("--order", choices=["keep", "given", "sorted"])
    parser.add_argument("--labels")
    asked = parser.parse_args()
    if not NAME.fullmatch(asked.name):
        parser.error("a name is a letter and then at most 31 letters, digits, _ and -")
    try:
        source = sys.stdin if asked.file == "-" else open(asked.file, encoding="utf-8")
        with source:
            facets = facets_in(source.read(), asked.order)
        check(facets)
        numbers = numbering(facets, asked.order)
    except (Fault, OSError, UnicodeDecodeError) as fault:
        sys.exit(f"convert.py: {fault}")
    sys.stdout.write(input_of(without_faces(facets), numbers, asked.prime, asked.name))
    if asked.labels:
        with open(asked.labels, "w", encoding="utf-8") as listed:
            listed.writelines(f"{number} {label}\n" for label, number in sorted(numbers.items(), key=lambda pair: pair[1]))


if __name__ == "__main__":
    main()
