"""Tests of comch.py, and of what README.md and docs/GUIDE.md show, over the built program.

The program is the one that COMCH names, or else crates/comch/out/comch; where there is none, all of them are skipped.
"""

import doctest
import os
import subprocess
import sys
import unittest
from pathlib import Path

import comch

TOP = Path(__file__).resolve().parent.parent
BUILT = TOP / "crates" / "comch" / "out" / "comch"
if BUILT.is_file():
    os.environ.setdefault("COMCH", str(BUILT))

PLANE = [[0, 1, 2], [0, 1, 5], [0, 2, 3], [0, 3, 4], [0, 4, 5], [1, 2, 4], [1, 3, 4], [1, 3, 5], [2, 3, 5], [2, 4, 5]]
CIRCLE = [[0, 1], [0, 2], [1, 2]]
SPHERE = [[0, 1, 2], [0, 1, 3], [0, 2, 3], [1, 2, 3]]
# a circle of six edges that goes twice round CIRCLE
HEXAGON = [[0, 2], [2, 4], [1, 4], [1, 3], [3, 5], [0, 5]]
TWICE = {0: 0, 1: 0, 2: 1, 3: 1, 4: 2, 5: 2}


class Triangulation:
    """Like a complex of Sage: its facets are a set of tuples."""

    def facets(self):
        return {("a", "b"), ("a", "c"), ("b", "c")}


def load_tests(loader, tests, pattern):
    if "COMCH" not in os.environ:
        print("test_comch: skipped, since the program is not built", file=sys.stderr)
        return unittest.TestSuite()
    tests.addTests(doctest.DocTestSuite(comch))
    return tests


class Answers(unittest.TestCase):
    def test_a_report(self):
        plane = comch.report(PLANE).only
        self.assertEqual(plane.ranks, [1, 1, 1])
        self.assertEqual(plane.products[1, 1].columns, {(0, 0): (1,)})
        square = plane.operations["Sq", 1, 1]
        self.assertEqual((square.target, square.columns, square.chains), (2, [(1,)], []))
        self.assertEqual(plane.degrees[2].classes, [{(2, 4, 5): 1}])
        self.assertEqual(len(plane.cartan), 8)
        self.assertTrue(all(verdict.holds and verdict.chain is None for verdict in plane.cartan))

    def test_a_basis_has_no_operations(self):
        plane = comch.basis(PLANE, prime=3)
        self.assertEqual(plane.prime, 3)
        self.assertEqual(plane.only.ranks, [1, 0, 0])
        self.assertEqual((plane.only.products, plane.only.operations, plane.only.cartan), ({}, {}, []))
        self.assertTrue(plane.text.startswith("comch basis 1\n"))

    def test_a_certificate(self):
        circle = comch.certify(CIRCLE, prime=3).only
        self.assertEqual(circle.degrees[1], comch.Degree(classes=[{(1, 2): 1}], below=[{(1,): 1}, {(2,): 1}]))
        self.assertEqual(circle.products[0, 1], comch.Product(columns={(0, 0): (1,)}, chains={(0, 0): {}}))
        self.assertEqual(circle.operations["P", 0, 1], comch.Operation(columns=[(1,)], chains=[{}], target=1))
        self.assertEqual(circle.cartan[0], comch.Verdict(a=0, i=0, b=0, j=0, n=0, holds=True, chain={}))

    def test_several_complexes_and_a_map(self):
        complexes = {"hexagon": HEXAGON, "circle": CIRCLE}
        for prime, degree in ((2, 0), (3, 2), (5, 2)):
            found = comch.report(complexes, prime=prime, maps={"twice": ("hexagon", "circle", TWICE)})
            self.assertEqual(list(found.complexes), ["hexagon", "circle"])
            self.assertEqual(found.maps["twice"].induced[1].columns, [(degree,)])
        found = comch.certify(complexes, prime=5, maps={"twice": ("hexagon", "circle", TWICE)}).maps["twice"]
        self.assertEqual((found.source, found.target, len(found.induced[1].chains)), ("hexagon", "circle", 1))

    def test_any_vertices(self):
        self.assertEqual(comch.basis(Triangulation()).only.degrees[1].classes, [{("b", "c"): 1}])
        mixed = comch.basis([[1, "b"], [1, (2, 3)], ["b", (2, 3)]]).only
        self.assertEqual(mixed.ranks, [1, 1])
        self.assertEqual(set(mixed.degrees[0].classes[0]), {(1,), ("b",), ((2, 3),)})

    def test_a_verdict_that_is_no(self):
        text = "comch certificate 1\nprime 3\ncomplex x\ncartan 1 2 2 1 4 no 2\ncycle 1:0.7 2:3.7\nend\ndone\n"
        found = comch._Reader(text, {"x": {0: "a", 3: "b", 7: "c"}}).report().only.cartan
        self.assertEqual(found, [comch.Verdict(a=1, i=1, b=2, j=0, n=4, holds=False, value=2, chain={("a", "c"): 1, ("b", "c"): 2})])

    def test_a_may_element(self):
        self.assertEqual(comch.may(3, 2), [(1, (1, 2, 3, 1, 2)), (1, (1, 2, 3, 2, 3)), (1, (1, 3, 1, 2, 3))])

    def test_bocksteins(self):
        found = comch.bockstein({"plane": PLANE, "circle": CIRCLE, "sphere": SPHERE})
        self.assertEqual([list(of) for of in found.values()], [[0, 1], [0], []])
        self.assertEqual([matrix.columns for matrix in found["plane"].values()], [[(0,)], [(1,)]])

    def test_a_check(self):
        empty = "comch certificate 1\nprime 3\ndone\n"
        self.assertIsNone(comch.check(empty))
        self.assertEqual(comch.check(empty.replace("3", "4")), (0, 2))


class Refusals(unittest.TestCase):
    def refused(self, call, **wanted):
        with self.assertRaises(comch.Refused) as caught:
            call()
        self.assertEqual({name: getattr(caught.exception, name) for name in wanted}, wanted)
        self.assertIn(caught.exception.meaning, str(caught.exception))

    def test_inputs(self):
        self.refused(lambda: comch.basis([[0, 0]]), status=3, kind="RepeatedVertex", line=4, source="facet 0 0")
        self.refused(lambda: comch.basis([range(17)]), status=3, kind="FacetTooWide", line=4)
        self.refused(lambda: comch.basis([range(16), range(16, 32)]), status=3, kind="TooManySimplices", line=5)
        self.refused(lambda: comch.basis([[]]), status=3, kind="BadLine", line=4, source="facet")
        self.refused(lambda: comch.basis(CIRCLE, prime=7), status=3, kind="OtherPrime", line=2, source="prime 7")
        self.refused(lambda: comch.basis({"no name": CIRCLE}), status=3, kind="BadLine", line=3)
        self.refused(lambda: comch.basis({f"x{k}": [] for k in range(9)}), status=3, kind="TooManyBlocks", line=19)

    def test_maps(self):
        def sends(sent, target="circle"):
            return lambda: comch.basis({"circle": CIRCLE, "sphere": SPHERE}, maps={"f": ("circle", target, sent)})

        self.refused(sends({0: 1, 1: 0, 2: 2}), status=3, kind="NotOrderPreserving", line=18, source="end")
        self.refused(sends({0: 0, 1: 1}), status=3, kind="VertexNotSent", line=17)
        self.refused(sends({}, "ghost"), status=3, kind="UnknownName", line=14, source="map f circle ghost")
        with self.assertRaisesRegex(ValueError, "9 is no vertex of circle"):
            sends({0: 9})()

    def test_terms(self):
        self.refused(lambda: comch.report(SPHERE, prime=3, terms=179), status=4, kind="Terms", count=180, limit=179, line=None)
        self.assertEqual(comch.report(SPHERE, prime=3, terms=180).only.ranks, [1, 0, 1])
        self.refused(lambda: comch.may(5, 16), status=4, count=1_892_578_125, limit=100_000_000)

    def test_words(self):
        self.refused(lambda: comch.may(7, 2), status=2, kind="Words", line=None)
        self.refused(lambda: comch.report(CIRCLE, terms=0), status=2, kind="Words")


class Pages(unittest.TestCase):
    def test_what_they_show(self):
        ran = subprocess.run([sys.executable, "-B", str(TOP / "bench" / "commands.py"), os.environ["COMCH"]], stdout=subprocess.PIPE, text=True, check=False)
        self.assertEqual(ran.returncode, 0, ran.stdout)


if __name__ == "__main__":
    unittest.main()
