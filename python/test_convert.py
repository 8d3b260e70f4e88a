"""Tests of examples/convert.py, on facets as other programs print them.

Where a command stands above a text, the text is what it printed, with SageMath 9.5, polymake 4.6, GAP 4.12, GUDHI 3.7
and Regina 7.3.
"""

import ast
import subprocess
import sys
import unittest
from pathlib import Path

CONVERT = Path(__file__).resolve().parent.parent / "examples" / "convert.py"

# sage -c 'print(simplicial_complexes.RealProjectivePlane().facets())'
SAGE_PLANE = """{(0, 3, 4), (1, 3, 5), (0, 2, 3), (1, 2, 4), (0, 1, 2), (0, 4, 5), (2, 4, 5), (2, 3, 5), (0, 1, 5), (1, 3, 4)}
"""
# sage -c 'C = SimplicialComplex([["a", "b"], ["b", "c"], ["a", "c"]]); print(C.product(C).facets())'
SAGE_TORUS = """\
{('LcRc', 'LcRb', 'LaRb'), ('LbRb', 'LbRa', 'LaRa'), ('LcRc', 'LaRc', 'LaRb'), ('LcRc', 'LbRc', 'LbRa'), ('LbRc', 'LbRb', 'LaRb'), ('LbRc', \
'LaRc', 'LaRb'), ('LcRb', 'LaRb', 'LaRa'), ('LcRc', 'LaRc', 'LaRa'), ('LbRb', 'LaRb', 'LaRa'), ('LcRc', 'LcRb', 'LbRb'), ('LcRb', 'LcRa', \
'LaRa'), ('LcRb', 'LbRb', 'LbRa'), ('LcRc', 'LcRa', 'LbRa'), ('LbRc', 'LbRa', 'LaRa'), ('LbRc', 'LaRc', 'LaRa'), ('LcRc', 'LcRa', 'LaRa'), \
('LcRb', 'LcRa', 'LbRa'), ('LcRc', 'LbRc', 'LbRb')}
"""
# sage -c 'C = simplicial_complexes.Sphere(1); print(C.product(C, rename_vertices=False).facets())'
SAGE_PAIRS = """\
{((0, 1), (1, 1), (1, 2)), ((1, 1), (1, 2), (2, 2)), ((0, 0), (2, 0), (2, 1)), ((1, 0), (2, 0), (2, 1)), ((0, 0), (1, 0), (1, 1)), ((0, 1), \
(0, 2), (1, 2)), ((0, 1), (0, 2), (2, 2)), ((1, 0), (1, 2), (2, 2)), ((0, 0), (0, 2), (2, 2)), ((0, 0), (0, 2), (1, 2)), ((0, 0), (1, 0), \
(1, 2)), ((1, 0), (2, 0), (2, 2)), ((0, 0), (2, 0), (2, 2)), ((1, 0), (1, 1), (2, 1)), ((1, 1), (2, 1), (2, 2)), ((0, 1), (2, 1), (2, 2)), \
((0, 0), (0, 1), (1, 1)), ((0, 0), (0, 1), (2, 1))}
"""
# sage -c 'print(SimplicialComplex([[0, 1], [1, 2]]).barycentric_subdivision().facets())'
SAGE_CHAINS = """{((0, 1), (0,)), ((1, 2), (1,)), ((1, 2), (2,)), ((0, 1), (1,))}
"""
# polymake 'use application "topaz"; print real_projective_plane()->FACETS;'
POLYMAKE = """\
{0 1 4}
{0 1 5}
{0 2 3}
{0 2 4}
{0 3 5}
{1 2 3}
{1 2 5}
{1 3 4}
{2 4 5}
{3 4 5}
"""
# gap -q <<< 'Print(Combinations([1 .. 4], 3), "\\n");'
GAP = "[ [ 1, 2, 3 ], [ 1, 2, 4 ], [ 1, 3, 4 ], [ 2, 3, 4 ] ]\n"
# gap -q <<< '[[1 .. 4], [2, 3, 4, 6]];'
GAP_RANGE = "[ [ 1 .. 4 ], [ 2, 3, 4, 6 ] ]\n"
# python3 -c 'import gudhi; t = gudhi.SimplexTree(); t.insert([0, 1, 2]); t.insert([2, 3], 0.5); print(list(t.get_filtration()))'
GUDHI = "[([0], 0.0), ([1], 0.0), ([0, 1], 0.0), ([2], 0.0), ([0, 2], 0.0), ([1, 2], 0.0), ([0, 1, 2], 0.0), ([3], 0.5), ([2, 3], 0.5)]\n"
# the same with: for s in t.get_filtration(): print(s)
GUDHI_LINES = """\
([0], 0.0)
([1], 0.0)
([0, 1], 0.0)
([2], 0.0)
([0, 2], 0.0)
([1, 2], 0.0)
([0, 1, 2], 0.0)
([3], 0.5)
([2, 3], 0.5)
"""
# regina-python: T = Example3.simplicialSphere(); print([[t.vertex(i).index() for i in range(4)] for t in T.tetrahedra()])
REGINA = "[[0, 1, 2, 3], [4, 1, 2, 3], [4, 0, 2, 3], [4, 0, 1, 3], [4, 0, 1, 2]]\n"
TETRAHEDRON = "facet 1 2 3\nfacet 1 2 4\nfacet 1 3 4\nfacet 2 3 4\n"


def in_python(text):
    """The facets of a list or a set in Python, in the order of the text."""
    return ast.literal_eval(f"[{text.strip()[1:-1]}]")


def lines_of(facets):
    """The lines of facets whose vertices keep their numbers."""
    return "".join("facet " + " ".join(map(str, sorted(facet))) + "\n" for facet in facets)


def numbered(facets):
    """The same facets, with the places of their labels in order."""
    labels = sorted({label for facet in facets for label in facet})
    return [[labels.index(label) for label in facet] for facet in facets]


def convert(text, *words):
    return subprocess.run([sys.executable, str(CONVERT), *words], input=text, stdout=subprocess.PIPE, stderr=subprocess.PIPE, text=True, check=False)


class Forms(unittest.TestCase):
    def gives(self, text, facets, *words):
        ran = convert(text, *words)
        self.assertEqual((ran.stdout, ran.stderr), (f"comch 1\nprime 2\ncomplex x\n{facets}end\n", ""))

    def test_sage(self):
        self.gives(SAGE_PLANE, lines_of(in_python(SAGE_PLANE)))
        self.gives(SAGE_TORUS, lines_of(numbered(in_python(SAGE_TORUS))))
        self.gives(SAGE_PAIRS, lines_of(numbered(in_python(SAGE_PAIRS))))
        self.gives(SAGE_CHAINS, "facet 0 1\nfacet 2 3\nfacet 3 4\nfacet 1 2\n")

    def test_polymake(self):
        plane = POLYMAKE.replace("{", "facet ").replace("}", "")
        self.gives(POLYMAKE, plane)
        self.gives(f"FACETS\n{POLYMAKE}\n", plane)

    def test_gap(self):
        self.gives(GAP, TETRAHEDRON)
        self.gives(GAP_RANGE, "facet 1 2 3 4\nfacet 2 3 4 6\n")

    def test_gudhi(self):
        for text in (GUDHI, GUDHI_LINES):
            self.gives(text, "facet 0 1 2\nfacet 2 3\n")
        self.gives("[([0], 0.0), ([1], 1e-05), ([0, 1], 0.5), ([2], inf)]", "facet 0 1\nfacet 2\n")
        self.gives("[0] -> 0.00\n[1] -> 0.00\n[0, 1] -> 0.50\n", "facet 0 1\n")

    def test_regina(self):
        self.gives(REGINA, lines_of(in_python(REGINA)))

    def test_the_manifold_page(self):
        self.gives("manifold_lex_d2_n4_o1_g0_#1=[[1,2,3],[1,2,4],[1,3,4],[2,3,4]]\n", TETRAHEDRON)
        self.gives("manifold_2_4_1=[[1,2,3],[1,2,4],\n[1,3,4],[2,3,4]];\n", TETRAHEDRON)

    def test_lines(self):
        self.gives("# a triangle\n0 1\n0,2 # the second edge\n\n1 2\n", "facet 0 1\nfacet 0 2\nfacet 1 2\n")
        self.gives("b a\nb c\n", "facet 0 1\nfacet 0 2\n", "--order", "given")
        self.gives("b a\nb c\n", "facet 0 1\nfacet 1 2\n", "--order", "sorted")
        self.gives("10 9\n", "facet 9 10\n")
        self.gives("10 9\n", "facet 0 1\n", "--order", "sorted")
        self.gives("1000000 -1\n", "facet 0 1\n")


class Faults(unittest.TestCase):
    def fault(self, text, *said):
        ran = convert(text)
        self.assertEqual((ran.stdout, ran.returncode), ("", 1))
        for part in said:
            self.assertIn(part, ran.stderr)

    def test_what_is_no_list_of_facets(self):
        self.fault("", "no facets")
        self.fault("Minimal triangulation of the torus", "line 1: Minimal is no number")
        self.fault("Simplicial complex with vertex set (0, 1, 2) and facets {(0, 1), (0, 2), (1, 2)}", "line 1: a list of lists beside another list")
        self.fault("one=[[1,2],[1,3],[2,3]]\ntwo=[[1,2]]\n", "line 1: a list of lists beside another list")
        self.fault("[1, [2, 3]]", "line 1: a list of lists beside")
        self.fault("\n[[[1, 2], [1, 3]]]", "line 2: one list of lists within a list")
        self.fault("[[0, 1],\n[0, (1, 2)]]", "line 2: a label that is a list beside one that is none")
        self.fault("[[[0, 1], 2], [[0, 1], 3]]", "line 1: a label that is a list beside one that is none")
        self.fault("facet 0 1\n", "line 1: facet is no number")

    def test_brackets_and_quotes(self):
        self.fault("[[0, 1],\n[1, 2)]", "line 2: a ) that closes nothing")
        self.fault("\n[[0, 1]", "line 2: a [ that is not closed")
        self.fault("{('a', 'b),}", "line 1: a quote that is not closed")

    def test_facets(self):
        self.fault("[[0, 1],\n[2, 2]]", "line 2: the vertex 2 twice in one facet")
        self.fault("[[0, 1], []]", "line 1: a facet without vertices")
        self.fault(" ".join(map(str, range(17))), "line 1: a facet with 17 vertices; at most 16")


if __name__ == "__main__":
    unittest.main()
