"""Tests of what the command answers by itself, without a build."""
from __future__ import annotations

import resource
import shutil
import subprocess
import tempfile
import unittest
from pathlib import Path

from commands import TOOLS

COMMAND = TOOLS.parent / "tilfa"


def answer(*words: str) -> tuple[int, str, str]:
    """What the command does where no toolchain is found, so that nothing can be built."""
    path = {"PATH": "/usr/bin:/bin"}
    done = subprocess.run([COMMAND, *words], env=path, capture_output=True, text=True, check=False)
    return done.returncode, done.stdout, done.stderr


def with_program(folder: str, text: str) -> Path:
    """The command beside a program of this text, which it takes as built."""
    command = Path(folder) / "tilfa"
    shutil.copy(COMMAND, command)
    program = Path(folder) / "build" / "tilfa"
    program.parent.mkdir()
    program.write_text("#!/usr/bin/env bash\n" + text)
    program.chmod(0o755)
    return command


class Command(unittest.TestCase):
    def test_help(self) -> None:
        status, text, told = answer("--help")
        self.assertEqual((status, told), (0, ""))
        for part in ("./tilfa run", "./tilfa make", "docs/SCRIPT.md", *(f" {number}  " for number in range(7)), "70"):
            self.assertIn(part, text)

    def test_version(self) -> None:
        status, text, told = answer("--version")
        self.assertEqual((status, told), (0, ""))
        self.assertEqual([line.split()[0] for line in text.splitlines()], ["tilfa", "toolchain:"])

    def test_other_words_go_to_the_program_as_they_are(self) -> None:
        with tempfile.TemporaryDirectory() as folder:
            command = with_program(folder, "printf '<%s>' \"$@\"; exit 6\n")
            for words in (["run"], ["make", "--help"], ["--help", "run"], ["-h"], ["--version", ""], ["a b", "*"]):
                done = subprocess.run([command, *words], capture_output=True, text=True, check=False)
                self.assertEqual((done.returncode, done.stdout), (6, "".join(f"<{word}>" for word in words)))

    def test_a_file_that_may_not_grow_is_a_failed_write(self) -> None:
        """The program sees a write that fails, and isn't ended by the signal that the system has for this."""
        with tempfile.TemporaryDirectory() as folder:
            command = with_program(folder, "exec dd if=/dev/zero bs=4096 count=2 2>/dev/null\n")

            def limit() -> None:
                resource.setrlimit(resource.RLIMIT_FSIZE, (4096, 4096))

            with open(Path(folder) / "answers", "wb") as answers:
                done = subprocess.run([command, "run"], stdout=answers, preexec_fn=limit, check=False)
        self.assertEqual(done.returncode, 1)


if __name__ == "__main__":
    unittest.main()
