"""How the tests run the tools, and the program where it is built."""
from __future__ import annotations

import subprocess
from pathlib import Path

TOOLS = Path(__file__).resolve().parent.parent
EXAMPLES = TOOLS.parent / "examples"
PROGRAM = TOOLS.parent / "build" / "tilfa"
TEXTS = Path(__file__).resolve().parent / "texts"


def run(tool: str, *words: str, given: bytes = b"") -> tuple[int, str, list[str]]:
    """The status of a tool, its output, and the lines that it told on standard error."""
    done = subprocess.run([TOOLS / tool, *words], input=given, capture_output=True, check=False)
    return done.returncode, done.stdout.decode(), done.stderr.decode().splitlines()


def answers(script: str) -> bytes:
    """What the program answers to a script."""
    return subprocess.run([PROGRAM, "run"], input=script.encode(), capture_output=True, check=False).stdout


def lsps_of(script: str) -> list[bytes]:
    return [bytes.fromhex(line.split()[1]) for line in script.splitlines() if line.startswith("lsp ")]


def questions_of(script: str) -> list[str]:
    lines = script.splitlines()
    return lines[lines.index("commit") + 1 :]


def example(name: str) -> str:
    return (EXAMPLES / name).read_text()
