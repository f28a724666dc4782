#!/usr/bin/env python3
"""Compares each version of a script with one that is made from scratch.

usage: bench/scratch.py PROGRAM SCRIPT..

A later version goes on from the one before, unless their nodes differ. So after each accepted `commit` of a script `audit
full` is asked, and in a run of its own once more behind two commits, by which a router that has no link comes and goes.
The status is 1 where the two audits differ.
"""

import re

from shown import answers_of, over_scripts, words

NUMBER = re.compile(r"\bversion \d+")
COMES = "lsp 831b010014010000002d04b000fe00fe00fe00007ffffff0000003f2100000000100020980001f400103003e80"
GOES = "lsp 831b010014010000001b000000fe00fe00fe00007ffffff1000003"


def edits(lines):
    """The lines of a script that are no questions."""
    kinds = (["lsp"], ["cost"], ["down"], ["up"], ["depth"], ["commit"], ["drop"])
    return [line for line in lines if words(line)[:1] in kinds]


def audited(program, lines):
    """The number of the version behind these lines, and its audit."""
    answers, shown = answers_of(program, lines + ["show", "audit full", "show"])
    return shown[0], NUMBER.sub("", answers[1])


def compare(program, lines, _seed):
    """How many versions were compared, and those that differ."""
    said = edits(lines)
    last, count, wrong = 0, 0, []
    for end in range(1, len(said) + 1):
        if words(said[end - 1]) != ["commit"]:
            continue
        number, audit = audited(program, said[:end])
        if number == last:
            continue
        last = number
        anew, made = audited(program, said[:end] + [COMES, "commit", GOES, "commit"])
        if anew == number + 2:
            count += 1
            if made != audit:
                wrong.append(f"version {number} answers\n{audit}\nand from scratch\n{made}")
    return count, wrong


if __name__ == "__main__":
    over_scripts(compare)
