#!/usr/bin/env python3
"""Inputs that aim at the worst of each command, with time and peak memory.

usage: bench/hostile.py PROGRAM [WORD ..]

PROGRAM is the built program (crates/comch/out/comch). The inputs have at most a megabyte, the certificates at most 32 of
1,048,576 bytes; many of these promise what they do not keep. Each run may take 60 processor seconds and 1 GB of address
space, and has the default limit of counted terms. A table is printed, as it stands in docs/PERFORMANCE.md: the bytes of
input and output, processor seconds, the peak of the resident memory, and how the run ended: done, a refusal, the answer
of `check`, or TIME or MEMORY where these did not suffice. With words, only the runs are made whose name has one of them.
The random inputs come from generators with fixed seeds.
"""

import itertools
import os
import random
import subprocess
import sys

from bench import Limits, repeated, run, some_triangles, strip, text_of, torus

INPUT, CERTIFICATE = 1_048_576, 33_554_432
LIMITS = Limits(seconds=60, space=10**9)
HEAD = b"comch 1\nprime 3\n"
COMPLEX = HEAD + b"complex x\n"
END = b"end\n"


def filled(head, piece, end=END, size=INPUT):
    """A text of this size or a little less: a head, a piece many times, an end."""
    return head + piece * ((size - len(head) - len(end)) // len(piece)) + end


def listed(head, pieces, end=END, size=INPUT):
    """A text with as many of the pieces as there is room for."""
    room = size - len(head) - len(end)
    lengths = itertools.accumulate(map(len, pieces))
    return head + "".join(piece for piece, length in zip(pieces, lengths) if length <= room).encode() + end


# ---- inputs


def of_facets(facets):
    return listed(COMPLEX, ["facet " + " ".join(map(str, facet)) + "\n" for facet in facets])


def skeleton(vertices, size):
    return list(itertools.combinations(range(vertices), size))


def some_faces(vertices, size, degree):
    """Random facets of this size, so many that a face with one vertex less lies in this many of them on average."""
    source = random.Random(1)
    return [face for face in itertools.combinations(range(vertices), size) if source.random() * vertices < degree]


def eight(facets):
    """Eight complexes with the same facets, with long names, and eight maps that send each vertex to itself."""
    lines, vertices = [], sorted({vertex for facet in facets for vertex in facet})
    names = [f"{'x' * 31}{k}" for k in range(8)]
    for name in names:
        lines += [f"complex {name}", *("facet " + " ".join(map(str, facet)) for facet in facets), "end"]
    for k, name in enumerate(names):
        lines += [f"map {name[1:]}m {name} {names[k - 1]}", *(f"send {vertex} {vertex}" for vertex in vertices), "end"]
    return HEAD + "\n".join([*lines, ""]).encode()


def spheres(count):
    """Disjoint boundaries of tetrahedra."""
    return [[4 * k + v for v in face] for k in range(count) for face in skeleton(4, 3)]


INPUTS = {
    "comments alone": lambda: filled(HEAD, b"#\n", b""),
    "one long name": lambda: filled(HEAD + b"complex ", b"x", b"\n"),
    "one long number": lambda: filled(COMPLEX + b"facet ", b"0", b"\n"),
    "one long facet": lambda: listed(COMPLEX + b"facet", [f" {v}" for v in range(200_000)], b"\n"),
    "one short facet many times": lambda: filled(COMPLEX, b"facet 0\n"),
    "wide facets many times": lambda: text_of(3, repeated(12, 1700)),
    "one facet too many": lambda: text_of(3, repeated(12, 1700, [range(900_000, 900_012)])),
    "facets too wide to count": lambda: text_of(3, [range(16 * k, 16 * k + 16) for k in range(9000)]),
    "points": lambda: of_facets([(v,) for v in range(999_999, 900_000, -1)]),
    "a complete graph": lambda: of_facets(skeleton(400, 2)),
    "eight wide complexes and maps": lambda: eight([range(14 * k, 14 * k + 14) for k in range(6)]),
    "eight maps with many sends": lambda: eight([(v,) for v in range(4000)]),
    **{f"random triangles, {c}": lambda c=c: of_facets(some_triangles(300, 15_000 * c // 100, 1)) for c in (100, 150, 200, 225, 250, 275)},
    **{f"random tetrahedra, {c}": lambda c=c: of_facets(some_faces(60, 4, c / 100)) for c in (200, 300, 390)},
    **{f"random 4-simplices, {c}": lambda c=c: of_facets(some_faces(32, 5, c / 100)) for c in (300, 400, 490)},
}
BASES = {f"basis: {name}": (["basis"], make) for name, make in INPUTS.items()}

# complexes whose counted terms are little below the limit, or far below it
REPORTED = {
    "320 points": lambda: of_facets([(v,) for v in range(320)]),
    "150 spheres": lambda: of_facets(spheres(150)),
    "all triangles of 30 vertices": lambda: of_facets(skeleton(30, 3)),
    "random triangles, 60 vertices": lambda: of_facets(some_triangles(60, 1650, 1)),
    "eight wide complexes and maps": INPUTS["eight wide complexes and maps"],
    "random triangles, 300 vertices": INPUTS["random triangles, 275"],
    "torus, 15,000 vertices": lambda: of_facets(torus(15_000)),
    "strip of 20,000 triangles": lambda: of_facets(strip(20_000)),
    "boundary of the 12-simplex": lambda: of_facets(skeleton(13, 12)),
}
REPORTS = {f"{word}: {name}": ([word], make) for word in ("report", "certify") for name, make in REPORTED.items()}

# ---- certificates

CERTIFIED = b"comch certificate 1\nprime 3\ncomplex c\n"
CIRCLE = CERTIFIED + b"facet 0 1\nfacet 0 2\nfacet 1 2\n"
CLASSES = CIRCLE + b"degree 0 rank 1\nclass 1:0 1:1 1:2\ndegree 1 rank 1\nbelow 1:1\nbelow 1:2\nclass 1:1.2\n"
DONE = b"end\ndone\n"


def promising(head, piece, end=DONE):
    return filled(head, piece, end, CERTIFICATE)


def of_paths(count, length):
    """The certificate of disjoint paths with this many vertices each: small columns, each on all vertices."""
    starts = range(0, count * length, length)
    lines = ["comch certificate 1", "prime 3", "complex paths"]
    lines += [f"facet {v} {v + 1}" for start in starts for v in range(start, start + length - 1)]
    lines += [f"degree 0 rank {count}", *("class " + " ".join(f"1:{v}" for v in range(start, start + length)) for start in starts)]
    lines += ["degree 1 rank 0", *(f"below 1:{v}" for start in starts for v in range(start + 1, start + length))]
    unit = lambda i: " ".join("1" if k == i else "0" for k in range(count))
    none = " ".join("0" * count)
    lines.append("product 0 0")
    lines += [f"column {i + 1} {j + 1} is {unit(i) if i == j else none}\nwith 0" for i in range(count) for j in range(count)]
    lines.append("operation P 0 from 0 to 0")
    lines += [f"column {j + 1} is {unit(j)}\nwith 0" for j in range(count)]
    lines += [f"cartan 0 {i + 1} 0 {j + 1} 0 yes\nwith 0" for i in range(count) for j in range(count)]
    return "\n".join([*lines, "end", "done", ""]).encode()


def of_sphere(program, vertices):
    """The certificate of the boundary of a simplex at 3, with 5 in the place of 3, where its May elements are large."""
    text = of_facets(skeleton(vertices, vertices - 1))
    return subprocess.run([program, "certify"], input=text, stdout=subprocess.PIPE, check=True).stdout.replace(b"prime 3", b"prime 5")


CERTIFICATES = {
    "one facet many times": lambda: promising(CERTIFIED, b"facet 0\n"),
    "one wide facet many times": lambda: promising(CERTIFIED, b"facet 0 1 2 3 4 5 6 7 8 9 10 11 12 13 14 15\n"),
    "complexes": lambda: promising(CERTIFIED + END, b"complex c\nend\n", b"done\n"),
    "degrees": lambda: listed(CIRCLE, [f"degree {n} rank 0\n" for n in range(2_000_000)], DONE, CERTIFICATE),
    "cochains below": lambda: promising(CIRCLE + b"degree 0 rank 1\n", b"below 1:0\n", b"class 1:0 1:1 1:2\n" + DONE),
    "classes": lambda: CIRCLE + b"degree 0 rank 3355000\n" + b"class 1:0\n" * 3_355_000 + b"product 0 0\n" + DONE,
    "a rank of 4,000,000,000": lambda: CIRCLE + b"degree 0 rank 4000000000\nclass 1:0\n" + DONE,
    "long chains": lambda: listed(CIRCLE + b"degree 0 rank 3\n", ["class " + " ".join(f"1:{v}" for v in range(999_999)) + "\n"] * 3, DONE, CERTIFICATE),
    "products": lambda: promising(CLASSES, b"product 0 0\n"),
    "columns": lambda: promising(CLASSES + b"product 0 0\n", b"column 1 1 is 1\nwith 0\n"),
    "one long column": lambda: promising(CLASSES + b"product 0 0\ncolumn 1 1 is", b" 1", b"\nwith 0\n" + DONE),
    "operations": lambda: promising(CLASSES, b"operation P 0 from 0 to 0\n"),
    "Cartan lines": lambda: promising(CLASSES, b"cartan 0 1 0 1 0 yes\nwith 0\n"),
    "sends": lambda: promising(CLASSES + b"end\nmap f c c\n", b"send 0 0\n"),
    "induced blocks": lambda: promising(CLASSES + b"end\nmap f c c\nsend 0 0\nsend 1 1\nsend 2 2\n", b"induced 0\n"),
    "150 paths of 330 vertices": lambda: of_paths(150, 330),
}
OTHERS = {
    "sample 994 5": (["sample", "994", "5"], lambda: b""),
    "may 5 13": (["may", "5", "13"], lambda: b""),
    "may 3 23": (["may", "3", "23"], lambda: b""),
}


def checks(program):
    made = {**CERTIFICATES, **{f"{n}-sphere at 5": lambda n=n: of_sphere(program, n + 2) for n in (4, 5)}}
    return {f"check: {name}": (["check"], make) for name, make in made.items()}


def ending(found):
    if found.status == 5:
        return "MEMORY"
    if found.status < 0:
        return "TIME" if found.seconds > LIMITS.seconds - 1 else f"signal {-found.status}"
    line = found.front.decode("ascii").partition("\n")[0]
    return f"`{line}`" if found.status or line == "yes" else "done"


def main():
    if len(sys.argv) < 2 or sys.argv[1] in ("-h", "--help"):
        sys.exit(__doc__)
    program, asked = os.path.abspath(sys.argv[1]), sys.argv[2:]
    print("| Run | Input kB | Output kB | Seconds | Peak MB | Ending |\n|---|---|---|---|---|---|")
    for name, (words, make) in {**BASES, **REPORTS, **checks(program), **OTHERS}.items():
        if asked and not any(word in name for word in asked):
            continue
        text = make()
        found = run(program, words, text, LIMITS)
        print(f"| {name} | {len(text) / 1000:,.1f} | {found.size / 1000:,.1f} | {found.seconds:.3f} | {found.peak / 1000:.1f} | {ending(found)} |", flush=True)


if __name__ == "__main__":
    main()
