#!/usr/bin/env python3
"""Time and peak memory of comch on inputs of growing size.

usage: bench/bench.py PROGRAM [PRIME] [GROUP ..]

PROGRAM is the built program (crates/comch/out/comch, after `rt run` in crates/comch), PRIME is 2, 3
or 5 (default 2), and the groups are torus, random, dense, sphere, wide, strip and ground, which run
`basis`; report, powers and squares, which run `report`; certify and bockstein, which run these commands;
check, may and sample (default: all).

Each input is made here, written to the program's standard input, and run RUNS times. One line is
printed for each: simplices, bytes of input and of output, the least of the processor seconds, the
peak of the resident memory, how time and memory grew from the line before (the exponent b in
"cost ~ simplices^b"), and the peak as a multiple of input plus output. Absolute times vary with
the machine and with what else it does; the ratios tell more.

The group may makes May elements. It prints for each the candidates, the terms, and the same costs. The
group check checks certificates of tori, as `certify` writes them. The group sample runs `sample` with its
greatest number.
"""

import itertools
import math
import os
import random
import resource
import subprocess
import sys
import tempfile
import time
from dataclasses import dataclass, replace

RUNS = 3


def torus(count):
    """The torus with `count` vertices and facets {i, i+1, i+3}, {i, i+2, i+3} modulo `count`."""
    for i in range(count):
        for step in (1, 2):
            yield sorted({i, (i + step) % count, (i + 3) % count})


def random_triangles(vertices, per_vertex, seed):
    """A random complex of degree 2: distinct triangles, `per_vertex` for each vertex."""
    source = random.Random(seed)
    found = set()
    while len(found) < vertices * per_vertex:
        found.add(tuple(sorted(source.sample(range(vertices), 3))))
    return sorted(found)


def sphere(vertices):
    """The boundary of the simplex with this many vertices."""
    return itertools.combinations(range(vertices), vertices - 1)


def strip(triangles):
    """A strip of triangles, which is contractible."""
    for i in range(triangles):
        yield (i, i + 1, i + 2)


def wide(facets):
    """Disjoint facets of 13 vertices."""
    for i in range(facets):
        yield range(13 * i, 13 * i + 13)


def flag(vertices, percent, seed):
    """The simplices of degree 3 of a random flag complex: each edge is there with this chance."""
    source = random.Random(seed)
    above = {v: set() for v in range(vertices)}
    for v, w in itertools.combinations(range(vertices), 2):
        if source.randrange(100) < percent:
            above[v].add(w)
    for v in range(vertices):
        for w in sorted(above[v]):
            for x in sorted(above[v] & above[w]):
                for y in sorted(above[v] & above[w] & above[x]):
                    yield (v, w, x, y)


def some_triangles(vertices, count, seed):
    """A random complex of degree 2 with this many distinct triangles."""
    source = random.Random(seed)
    found = set()
    while len(found) < count:
        found.add(tuple(sorted(source.sample(range(vertices), 3))))
    return sorted(found)


def repeated(facets, times, last=()):
    """Wide facets, all of them again and again, and then the last ones."""
    made = [tuple(facet) for facet in wide(facets)]
    for _ in range(times):
        yield from made
    yield from last


def example(name, block):
    """The facets of this complex of a file in examples/."""
    path = os.path.join(os.path.dirname(os.path.dirname(os.path.abspath(__file__))), "examples", name)
    with open(path) as file:
        _, _, rest = file.read().partition(f"complex {block}\n")
    lines = rest.partition("\nend")[0].splitlines()
    return [tuple(map(int, line.split()[1:])) for line in lines if line.startswith("facet ")]


def text_of(prime, facets):
    lines = ["comch 1", f"prime {prime}", "complex x"]
    lines += ["facet " + " ".join(map(str, facet)) for facet in facets]
    lines.append("end")
    return ("\n".join(lines) + "\n").encode()


def count_simplices(facets):
    found = set()
    for facet in set(facets):
        if len(found) > 100000:
            break
        for size in range(1, len(facet) + 1):
            found.update(itertools.combinations(facet, size))
    return len(found)


# name, facets; the torus of the `sample` family with N is the one with N + 6 vertices
GROUPS = {
    "torus": [(f"torus {m}", lambda m=m: torus(m)) for m in (100, 500, 1000, 4000, 15000)],
    "random": [(f"random {v}", lambda v=v: random_triangles(v, 4, 1)) for v in (160, 220, 260)],
    "dense": [(f"dense {v}", lambda v=v: random_triangles(v, 40, 1)) for v in (160, 220, 260)],
    "sphere": [(f"sphere {k - 2}", lambda k=k: sphere(k)) for k in (9, 11, 13, 15)],
    "wide": [(f"wide {k}", lambda k=k: wide(k)) for k in (1, 3, 12)],
    "strip": [(f"strip {k}", lambda k=k: strip(k)) for k in (3000, 12000, 24000)],
    "ground": [
        ("torus 15000", lambda: torus(15000)),
        ("sphere 14", lambda: sphere(16)),
        ("flag 160", lambda: flag(160, 25, 1)),
        ("triangles 220", lambda: some_triangles(220, 22264, 1)),
    ],
    "report": [
        *((f"torus {m}", lambda m=m: torus(m)) for m in (100, 500, 1000, 15000)),
        ("k3 surface", lambda: example("k3_surface.txt", "k3")),
        *((f"sphere {k - 2}", lambda k=k: sphere(k)) for k in (6, 7, 8, 9, 10)),
        ("triangles 160", lambda: some_triangles(160, 11776, 1)),
    ],
    "powers": [*((f"sphere {k - 2}", lambda k=k: sphere(k)) for k in (8, 9, 10, 11, 12)), ("torus 15000", lambda: torus(15000))],
    "squares": [
        ("complex plane", lambda: example("complex_plane_and_wedge.txt", "plane")),
        ("its suspension", lambda: example("suspensions.txt", "plane")),
        ("quaternionic", lambda: example("quaternionic_plane_and_wedge.txt", "plane")),
    ],
    "certify": [(f"torus {m}", lambda m=m: torus(m)) for m in (100, 500, 1000, 3000)],
    "bockstein": [(f"torus {m}", lambda m=m: torus(m)) for m in (100, 1000, 15000)],
}

REPORT = ["report", "--terms", "1000000000000"]

# the words that a group is run with; the others run `basis`
WORDS = {"report": REPORT, "powers": REPORT, "squares": REPORT, "certify": ["certify"], "bockstein": ["bockstein"]}


def peak_of(pid):
    """The peak of the resident memory so far in kilobytes, or 0 where the process has ended."""
    try:
        with open(f"/proc/{pid}/status") as status:
            for line in status:
                if line.startswith("VmHWM"):
                    return int(line.split()[1])
    except (FileNotFoundError, ProcessLookupError):
        pass
    return 0


def candidates(prime, degree):
    """How many lists the May element of this degree is made from."""
    return prime ** (degree // 2) * math.comb(prime + degree - 1, degree)


# prime and degree
ELEMENTS = [(2, 40), (3, 15), (3, 19), (3, 23), (5, 8), (5, 10), (5, 12)]


@dataclass
class Limits:
    """What a run may take: processor seconds, and bytes of address space."""

    seconds: int
    space: int

    def set(self):
        resource.setrlimit(resource.RLIMIT_CPU, (self.seconds, self.seconds))
        resource.setrlimit(resource.RLIMIT_AS, (self.space, self.space))


@dataclass
class Run:
    """Processor seconds, peak kilobytes, bytes of output with their front, and exit status of one run."""

    seconds: float
    peak: int
    size: int
    front: bytes
    status: int


def run(program, words, text, limits=None):
    """Runs the program.

    The peak is read while the program runs: what the kernel tells of a child that has ended counts
    the memory of this script too.
    """
    with tempfile.TemporaryFile() as source, tempfile.TemporaryFile() as sink:
        source.write(text)
        source.seek(0)
        child = subprocess.Popen([program, *words], stdin=source, stdout=sink, preexec_fn=limits and limits.set)
        peak = 0
        while True:
            peak = max(peak, peak_of(child.pid))
            pid, status, usage = os.wait4(child.pid, os.WNOHANG)
            if pid:
                break
            time.sleep(0.0005)
        child.returncode = os.waitstatus_to_exitcode(status)
        sink.seek(0)
        front = sink.read(100)
        return Run(usage.ru_utime + usage.ru_stime, peak, sink.seek(0, os.SEEK_END), front, child.returncode)


def least(program, words, text):
    """One of RUNS runs, with the least of their seconds and the greatest of their peaks."""
    runs = [run(program, words, text) for _ in range(RUNS)]
    return replace(runs[0], seconds=min(r.seconds for r in runs), peak=max(r.peak for r in runs))


def measure_checks(program, prime):
    print(f"{'certificate':14} {'in kB':>8} {'seconds':>8} {'peak MB':>8}  answer")
    for m in (100, 500, 1000, 1860):
        job = text_of(prime, torus(m))
        text = subprocess.run([program, "certify"], input=job, stdout=subprocess.PIPE, check=True).stdout
        found = least(program, ["check"], text)
        print(f"{f'torus {m}':14} {len(text) / 1000:8.1f} {found.seconds:8.3f} {found.peak / 1000:8.1f}  {found.front.decode().strip()}", flush=True)


def measure_samples(program, prime):
    found = least(program, ["sample", "994", str(prime)], b"")
    print(f"sample 994 {prime}: {found.seconds:.3f} s, {found.peak / 1000:.1f} MB")


def exponent(new, old, n, m):
    if old <= 0 or new <= 0 or n == m:
        return "    -"
    return f"{math.log(new / old) / math.log(n / m):5.2f}"


def measure_elements(program):
    print(f"{'element':14} {'candidates':>11} {'terms':>9} {'out kB':>8} {'seconds':>8} {'peak MB':>8}")
    for prime, degree in ELEMENTS:
        words = ["may", str(prime), str(degree)]
        found = least(program, words, b"")
        lines = subprocess.run([program, *words], stdout=subprocess.PIPE, check=True).stdout.count(b"\n")
        print(f"{'may ' + words[1] + ' ' + words[2]:14} {candidates(prime, degree):11} {lines - 2:9} {found.size / 1000:8.1f}"
              f" {found.seconds:8.3f} {found.peak / 1000:8.1f}", flush=True)


def main():
    if len(sys.argv) < 2:
        sys.exit(__doc__)
    program = os.path.abspath(sys.argv[1])
    prime = int(sys.argv[2]) if len(sys.argv) > 2 else 2
    groups = sys.argv[3:] or [*GROUPS, "check", "may", "sample"]
    if "check" in groups:
        measure_checks(program, prime)
    if "sample" in groups:
        measure_samples(program, prime)
    if "may" in groups:
        measure_elements(program)
    groups = [group for group in groups if group in GROUPS]
    if not groups:
        return
    print(f"at {prime}; {os.cpu_count()} processors; least of {RUNS} runs")
    print(f"{'input':14} {'simplices':>9} {'in kB':>8} {'out kB':>8} {'seconds':>8} {'grows':>5} {'peak MB':>8} {'grows':>5} {'peak/io':>8}")
    for group in groups:
        last, last_size = None, 0
        words = WORDS.get(group, ["basis"])
        print(" ".join(words))
        for name, make in GROUPS[group]:
            facets = [tuple(facet) for facet in make()]
            text = text_of(prime, facets)
            size = count_simplices(facets)
            found = least(program, words, text)
            grows = ("    -", "    -") if last is None else (
                exponent(found.seconds, last.seconds, size, last_size), exponent(found.peak, last.peak, size, last_size))
            print(f"{name:14} {size:9} {len(text) / 1000:8.1f} {found.size / 1000:8.1f} {found.seconds:8.3f} {grows[0]} {found.peak / 1000:8.1f} {grows[1]}"
                  f" {found.peak * 1024 / (len(text) + found.size):8.1f}" + ("" if found.status == 0 else f"  status {found.status}"), flush=True)
            last, last_size = found, size


if __name__ == "__main__":
    main()
