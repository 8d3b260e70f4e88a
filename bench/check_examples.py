#!/usr/bin/env python3
"""Compares `comch check` with examples/check_certificate.py, on certificates and on altered ones.

usage: bench/check_examples.py [PROGRAM]

PROGRAM stands for ./comch, which is run where no program is named. Certificates of the small examples are made at 2, 3
and 5 and altered: a line is left out, written twice, or put behind the next, the text ends before it, or one number in
it is another. Of the certificate of a circle each such text is compared, of the others some, which a generator with a
fixed seed takes. Each text on which the answers differ is printed with both, and the status is 1 where there is one.
"""

import random
import re
import subprocess
import sys
from collections import Counter
from itertools import product
from pathlib import Path

TOP = Path(__file__).resolve().parent.parent
sys.path.insert(0, str(TOP / "examples"))
import check_certificate  # noqa: E402

EXAMPLES = ["circle", "circle_in_disc", "twice_round", "projective_plane", "torus", "moore", "plane_and_wedge", "torus_and_klein_bottle"]
WHOLE, SOME = "circle", 60


def certificate(program, name, prime):
    text = (TOP / "examples" / f"{name}.txt").read_text(encoding="ascii")
    job = re.sub(r"(?m)^prime \d$", f"prime {prime}", text)
    return subprocess.run([program, "certify"], input=job, stdout=subprocess.PIPE, text=True, check=True).stdout


def with_other_numbers(line):
    """The line with one of its numbers replaced by its neighbours."""
    for number in re.finditer(r"\d+", line):
        for other in {int(number.group()) + 1, max(int(number.group()) - 1, 0)} - {int(number.group())}:
            yield f"{line[: number.start()]}{other}{line[number.end() :]}"


def altered(text):
    """The texts that one alteration makes of a text."""
    lines = text.splitlines(keepends=True)
    for at, line in enumerate(lines):
        before, behind = lines[:at], lines[at + 1 :]
        yield "".join(before)
        yield "".join(before + behind)
        yield "".join(before + [line, line] + behind)
        yield "".join(before + behind[:1] + [line] + behind[1:])
        for other in with_other_numbers(line):
            yield "".join(before + [other] + behind)


def answer_of_program(program, text):
    return subprocess.run([program, "check"], input=text, stdout=subprocess.PIPE, text=True, check=False).stdout.strip()


def answer_by_definition(text):
    try:
        check_certificate.check(text)
    except check_certificate.No as no:
        return "no {} line {}".format(*no.args)
    return "yes"


def main():
    if len(sys.argv) > 2 or sys.argv[1:] in (["-h"], ["--help"]):
        sys.exit(__doc__)
    program = str(Path(sys.argv[1] if len(sys.argv) > 1 else TOP / "comch").resolve())
    answers, differ = Counter(), 0
    for name, prime in product(EXAMPLES, (2, 3, 5)):
        text = certificate(program, name, prime)
        others = list(altered(text))
        if name != WHOLE:
            others = random.Random(f"{name} {prime}").sample(others, SOME)
        print(f"{name} at {prime}: {len(others) + 1} texts", flush=True)
        for other in [text, *others]:
            ours, theirs = answer_of_program(program, other), answer_by_definition(other)
            answers[ours.partition(" line ")[0]] += 1
            if ours != theirs:
                differ += 1
                print(f"check says {ours}, the definitions {theirs}, of\n{other}", flush=True)
    print(", ".join(f"{count} {answer}" for answer, count in sorted(answers.items())))
    print(f"{answers.total() - differ} agree, {differ} differ")
    sys.exit(1 if differ else 0)


if __name__ == "__main__":
    main()
