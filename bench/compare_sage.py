#!/usr/bin/env python3
"""Compares `comch report` with SageMath on the examples.

usage: sage -python bench/compare_sage.py [PROGRAM]

PROGRAM stands for ./comch, which is run where no program is named. Sage makes a basis of the homology of each complex of
the examples over the field with 2, 3 or 5 elements. The cocycles that comch prints are evaluated on Sage's cycles. That
gives the class of each cocycle in Sage's cohomology ring, which is dual to that homology, and the classes of one degree
have to be a basis. Then Sage's products, squares and induced maps of these classes are compared with the printed
matrices, and the rank of bP^0 from degree q with the number of summands of order P in the whole homology of degree q.
Complexes with more than 1,000 simplices are left out, since Sage takes long for their products, and so is a file at a
prime at which the counted terms pass the default limit.

One line is printed for each complex and map, with how many of each agree, one for each that differs, and the sums; the
status is 1 where one differs. Where there is no Sage, nothing is compared, and the status is 0.
"""

import sys
from collections import Counter
from pathlib import Path

TOP = Path(__file__).resolve().parent.parent
sys.path.insert(0, str(TOP / "python"))
import comch  # noqa: E402

try:
    from sage.all import GF, Hom, SimplicialComplex, matrix
except ImportError:
    GF = None

MOST_SIMPLICES = 1000


def blocks_of(path):
    """The complexes of an input as lists of facets, and its maps with their sends, by name."""
    complexes, maps = {}, {}
    for line in path.read_text(encoding="ascii").splitlines():
        match line.split():
            case ["complex", name]:
                facets = complexes[name] = []
            case ["facet", *vertices]:
                facets.append([int(vertex) for vertex in vertices])
            case ["map", name, source, target]:
                sends = {}
                maps[name] = (source, target, sends)
            case ["send", vertex, image]:
                sends[int(vertex)] = int(image)
    return complexes, maps


class Compared:
    """How many of each kind agree, and how many differ. Those that differ are told."""

    def __init__(self, title):
        self.title, self.agree, self.differ = title, Counter(), 0

    def add(self, kind, agrees, what):
        self.agree[kind] += agrees
        self.differ += not agrees
        if not agrees:
            print(f"{self.title}: {kind} {what}: DIFFERS", flush=True)

    def take(self, other):
        self.agree += other.agree
        self.differ += other.differ

    def tell(self):
        print(f"{self.title}: " + ", ".join(f"{count} {kind}" for kind, count in self.agree.items()), flush=True)
        return self


class InSage:
    """A complex in Sage with the classes that comch prints of it, as elements of Sage's cohomology ring."""

    def __init__(self, facets, found, prime):
        self.complex, self.found, self.field = SimplicialComplex(facets, is_mutable=False), found, GF(prime)
        self.ring = self.complex.cohomology_ring(self.field)
        homology = self.complex.homology_with_basis(self.field)
        degrees = range(len(found.degrees))
        cycles = [[dict(of.to_cycle()) for of in homology.basis(n)] for n in degrees]
        self.values = [
            matrix(self.field, degree.rank, len(of), [self.pairing(z, cycle) for z in degree.classes for cycle in of])
            for degree, of in zip(found.degrees, cycles)
        ]
        self.classes = [
            [self.ring.sum(value * of for value, of in zip(row, self.ring.basis(n))) for row in self.values[n].rows()] for n in degrees
        ]

    def pairing(self, cochain, cycle):
        return sum(value * cochain.get(tuple(simplex), 0) for simplex, value in cycle.items())

    def combination(self, n, coordinates):
        return self.ring.sum(self.field(value) * of for value, of in zip(coordinates, self.classes[n]))


def compare_complex(title, here, prime):
    compared, found = Compared(title), here.found
    for n, values in enumerate(here.values):
        compared.add("bases", values.is_square() and values.is_invertible(), f"in degree {n}")
    for (a, b), product in found.products.items():
        for (i, j), values in product.columns.items():
            wanted = here.classes[a][i] * here.classes[b][j]
            compared.add("products", wanted == here.combination(a + b, values), f"{a} {b} of the classes {i} and {j}")
    for (word, k, q), of in found.operations.items():
        if word == "Sq":
            for j, values in enumerate(of.columns):
                compared.add("squares", here.classes[q][j].Sq(k) == here.combination(of.target, values), f"Sq {k} of class {j} of degree {q}")
        elif word == "bP" and k == 0:
            whole = list(here.complex.homology(q, reduced=False).invariants())
            rank = matrix(here.field, [list(values) for values in of.columns]).rank()
            compared.add("ranks of bP^0", rank == whole.count(prime), f"from degree {q}")
    return compared.tell()


def compare_map(title, source, target, sends, found):
    compared = Compared(title)
    map_in_sage = Hom(source.complex, target.complex)(sends)
    pulled = map_in_sage.induced_homology_morphism(source.field, cohomology=True)
    for q, induced in found.induced.items():
        for j, values in enumerate(induced.columns):
            wanted, combined = pulled(target.classes[q][j]), source.combination(q, values)
            compared.add("induced columns", wanted.monomial_coefficients() == combined.monomial_coefficients(), f"{j} of degree {q}")
    return compared.tell()


def main():
    if len(sys.argv) > 2 or sys.argv[1:] in (["-h"], ["--help"]):
        sys.exit(__doc__)
    if GF is None:
        print("skipped: there is no Sage")
        return
    if len(sys.argv) > 1:
        comch.os.environ["COMCH"] = str(Path(sys.argv[1]).resolve())
    whole = Compared("all")
    for path in sorted((TOP / "examples").glob("*.txt")):
        complexes, maps = blocks_of(path)
        complexes = {name: facets for name, facets in complexes.items() if sum(SimplicialComplex(facets).f_vector()[1:]) <= MOST_SIMPLICES}
        maps = {name: of for name, of in maps.items() if of[0] in complexes and of[1] in complexes}
        for prime in (2, 3, 5):
            try:
                found = comch.report(complexes, prime=prime, maps=maps)
            except comch.Refused as refused:
                print(f"{path.stem} at {prime}: {refused}")
                continue
            made = {name: InSage(facets, found.complexes[name], prime) for name, facets in complexes.items()}
            for name, here in made.items():
                whole.take(compare_complex(f"{path.stem}: {name} at {prime}", here, prime))
            for name, (source, target, sends) in maps.items():
                whole.take(compare_map(f"{path.stem}: {name} at {prime}", made[source], made[target], sends, found.maps[name]))
    whole.tell()
    print(f"{whole.agree.total()} agree, {whole.differ} differ")
    sys.exit(1 if whole.differ else 0)


if __name__ == "__main__":
    main()
