#!/usr/bin/env python3
"""Compares what `diff` answers with what the audits before and after it say.

usage: bench/differences.py PROGRAM SCRIPT..

After each `commit` of a script `links`, `audit full` and `diff` of the last two versions are asked, and before it
`try diff` of the last one. From the lines of two audits, with links known by their ends and identities, the answer to
`diff` is reckoned anew. The status is 1 where something differs.
"""

import re

from shown import answers_of, over_scripts, words

LINK = re.compile(r"[0-9a-f.]+>[0-9a-f.]+#\d+")


def asking(lines):
    """The script with these questions round each commit, a `show` before and behind each."""
    out = []
    for line in lines:
        if words(line)[:1] in (["audit"], ["links"], ["show"], ["hold"], ["watch"], ["join"]):
            continue
        if words(line) != ["commit"]:
            out.append(line)
            continue
        out += ["show", "TRY", "show", "commit", "show", "links", "show", "audit full", "show", "DIFF 1", "show", "DIFF 0", "show"]
    return out


def keys_of(links):
    """Of the answer to `links` each link's name with its ends and its identity."""
    found = {}
    for line in links.splitlines():
        if line.startswith("link "):
            name = line.split()[1]
            found[name] = name.split("#")[0] + " " + re.search(r" ident (.*) groups ", line)[1]
    return found


class Audit:
    """The repairs of an audit, by names: each with its line, and what it says with links by their keys."""

    def __init__(self, text, links):
        keys = keys_of(links)
        self.lines, self.said = {}, {}
        for line in text.splitlines():
            if line.startswith("repair ") and " uncovered " not in line:
                plain = LINK.sub(lambda it: "<" + keys[it[0]] + ">", line)
                name, said = plain.split(" via ", 1)
                self.lines[name] = line
                self.said[name] = said


def diff_of(version, old, new):
    """What `diff` is to answer of these audits."""
    lost = [old.lines[name] for name in old.lines if name not in new.lines]
    gained = [new.lines[name] for name in new.lines if name not in old.lines]
    both = [name for name in new.lines if name in old.lines]
    other = [name for name in both if old.said[name] != new.said[name]]
    out = [f"lost {line}" for line in lost] + [f"gained {line}" for line in gained]
    for name in other:
        out += [f"was {old.lines[name]}", f"now {new.lines[name]}"]
    out.append(f"diff version {version} lost {len(lost)} gained {len(gained)} other {len(other)} same {len(both) - len(other)}")
    return "\n".join(out) + "\n"


def compare(program, lines, _seed):
    """How many answers were compared, and those that differ, each with what it is to be."""
    asked = asking(lines)
    blank = ["" if it in ("TRY",) or it.startswith("DIFF") else it for it in asked]
    _, shown = answers_of(program, blank)
    rounds = asked.count("TRY")
    per = len(shown) // rounds if rounds else 0
    before = [shown[k * per] for k in range(rounds)]
    after = [shown[k * per + 2] for k in range(rounds)]
    full, at = [], -1
    for line in asked:
        if line == "TRY":
            at += 1
            line = f"try diff {max(before[at], 1)}"
        elif line.startswith("DIFF"):
            line = f"diff {max(after[at] - int(line[-1]), 1)}"
        full.append(line)
    said, _ = answers_of(program, full)
    count, wrong, audits = 0, [], {}
    for k in range(rounds):
        tried, _, links, audit, one, none = said[k * per + 1:k * per + 7]
        if after[k] == 0:
            continue
        audits[after[k]] = Audit(audit, links)
        old, new = max(after[k] - 1, 1), audits[after[k]]
        wanted = [(one, diff_of(old, audits[old], new)), (none, diff_of(after[k], new, new))]
        if after[k] == before[k] + 1 and before[k]:
            wanted.append((tried, diff_of(before[k], audits[before[k]], new)))
        for got, want in wanted:
            count += 1
            if got != want:
                wrong.append(f"answered\n{got}\nwhere the audits say\n{want}")
    return count, wrong


if __name__ == "__main__":
    over_scripts(compare)
