#!/usr/bin/env python3
"""Compares what questions are answered under `try` with what they are answered after the commit.

usage: bench/tries.py PROGRAM SCRIPT..

Before each `commit` of a script some of its questions are tried, and after it they are asked. Where the commit was
accepted both answers have to be the same; where it was refused each question is to be refused as the commit was. A
`show` line before each of them tells the answers apart. The status is 1 where something differs.
"""

import random
import re

from shown import answers_of, over_scripts, words

ASKING = {"dist", "next", "label", "spaces", "repair", "adjrepair", "adjbackup", "walk", "load", "audit", "nodes",
          "links", "aside", "fails"}
ALWAYS = ["audit", "audit full", "audit labels", "audit by node", "nodes", "links", "aside"]
MOST = 8


def questions_of(lines):
    """The questions of a script, each once, in order."""
    asked = [" ".join(words(line)) for line in lines if words(line) and words(line)[0] in ASKING]
    return list(dict.fromkeys(ALWAYS + [it for it in asked if len(words(it)) <= 7]))


def tried(lines, seed):
    """The script with questions round each commit, and how many there are round each."""
    rng, questions, out, counts = random.Random(seed), questions_of(lines), [], []
    for line in lines:
        if words(line) != ["commit"]:
            out.append(line)
            continue
        some = rng.sample(questions, min(MOST, len(questions)))
        for question in some:
            out += ["show", "try " + question]
        out += ["show", "commit"]
        for question in some:
            out += ["show", question]
        out.append("show")
        counts.append(some)
    return out, counts


def plain(text):
    """An answer without the number of its line."""
    return re.sub(r"(?m)^refused \d+ ", "refused ", text)


def compare(program, lines, seed):
    """How many answers were compared, and the questions whose two answers differ."""
    script, counts = tried([line for line in lines if words(line) != ["show"]], seed)
    parts, _ = answers_of(program, script)
    at, wrong, count = 0, [], 0
    for some in counts:
        # what came before the first of them ends with the first `show`
        before = parts[at + 1:at + 1 + len(some)]
        commit = parts[at + 1 + len(some)]
        after = parts[at + 2 + len(some):at + 2 + 2 * len(some)]
        for question, one, other in zip(some, before, after):
            # words of a bad form are refused as such, whatever a commit would be
            wanted = other if commit.startswith("version ") or plain(other) == "refused 2 BadForm\n" else commit
            count += 1
            if plain(one) != plain(wanted):
                wrong.append(f"{question}\n  tried: {one[:300]!r}\n  asked: {wanted[:300]!r}")
        at += 2 + 2 * len(some)
    return count, wrong


if __name__ == "__main__":
    over_scripts(compare)
