"""What a run answers between the lines `show`, and comparisons over the scripts of a command line."""

import re
import subprocess
import sys

SHOWN = re.compile(r"(?m)^show version (\d+) .*\n")


def words(line):
    """The words of a line."""
    return line.replace("\t", " ").rstrip("\r").split()


def answers_of(program, lines):
    """What stands between the answers to `show`, and the versions that these show."""
    script = "\n".join(lines) + "\n"
    ran = subprocess.run([program, "run"], input=script.encode("latin-1"), stdout=subprocess.PIPE, check=False)
    if ran.returncode not in (0, 1):
        sys.exit(f"the program ended with status {ran.returncode}")
    pieces = SHOWN.split(ran.stdout.decode("latin-1"))
    return pieces[0::2], [int(it) for it in pieces[1::2]]


def over_scripts(compare):
    """Ends with status 1 where something differs in a script of the command line, which names the program first.

    `compare` takes the program, the lines of a script and a number of its own for it. It answers how many answers it
    compared, and a text for each that differs, of which the first three are printed.
    """
    program, paths = sys.argv[1], sys.argv[2:]
    total = bad = 0
    for seed, path in enumerate(paths):
        with open(path, encoding="latin-1") as it:
            count, wrong = compare(program, it.read().split("\n"), seed)
        total += count
        bad += len(wrong)
        for text in wrong[:3]:
            print(f"{path}: {text}")
    print(f"{len(paths)} scripts, {total} answers compared, {bad} differ")
    sys.exit(bad > 0)
