"""The command of the package, on the runs of tests/vectors and with real streams."""
import os
import subprocess
import sys
import unittest
from unittest import mock

import polytwkb
import vectors
from polytwkb import __main__ as command

HEADER = vectors.HEADER.encode()
POINT = b'{"type":"Point","coordinates":[2,1]}\n'


def run(*words, **options):
    """Status, output and standard error of a run as a process."""
    options.setdefault("stdout", subprocess.PIPE)
    ended = subprocess.run(
        [sys.executable, "-B", "-m", "polytwkb", *words], stderr=subprocess.PIPE, check=False, **options
    )
    return ended.returncode, ended.stdout, ended.stderr.decode()


class Runs(unittest.TestCase):
    """Runs of the command inside this process: the same status, output and line."""

    def test_runs(self):
        count = 0
        for name, options, given, printed in vectors.runs():
            with self.subTest(command=name, options=options, given=given):
                given_words = (f"--{option}={value}" if value else f"--{option}" for option, value in options)
                words = command.parser().parse_args([name, *given_words])
                given = given.encode() if isinstance(given, str) else given
                written = []
                write = mock.patch.object(command, "write", lambda output: not written.append(output))
                with mock.patch.object(command, "read", lambda: given), write:
                    status, line = command.run(words)
                output = written[0].hex() if name == "pack" else written[0].decode().replace("\n", "/")
                self.assertEqual((output, line or ""), printed)
                self.assertEqual(status, 1 if line else 0)
                count += 1
        self.assertGreater(count, 60)


class Processes(unittest.TestCase):
    def test_statuses(self):
        table = HEADER + b"0,point,,0,AC\n"
        for words, options, due in [
            (["pack"], {"input": table}, (0, bytes.fromhex("0102020402"), "")),
            (["pack", "--style", "plain"], {"input": table}, (0, bytes.fromhex("01000402"), "")),
            (["show"], {"input": bytes.fromhex("0102020402")}, (0, b"0 0 point 0 02 5 1\n", "")),
            (["unpack"], {"input": bytes.fromhex("01020204")}, (1, HEADER, "polytwkb: byte 4: truncated\n")),
            (["unpack", "--geojson"], {"input": bytes.fromhex("01000402")}, (0, POINT, "")),
            (["--version"], {}, (0, f"polytwkb {polytwkb.__version__}\n".encode(), "")),
        ]:
            with self.subTest(words=words):
                self.assertEqual(run(*words, **options), due)
        wrong = ["pack", "--max-nest", "33"], ["show", "--style", "full"], ["pack", "--geojson"]
        for words in [], ["help"], ["pack", "table.csv"], *wrong:
            with self.subTest(words=words):
                status, output, said = run(*words, input=b"")
                self.assertEqual((status, output), (2, b""))
                self.assertIn("usage: polytwkb", said)

    def test_standard_streams_that_fail(self):
        with open(os.devnull, "wb") as unreadable:
            self.assertEqual(run("unpack", stdin=unreadable), (3, HEADER, "polytwkb: read failed\n"))
            self.assertEqual(run("pack", stdin=unreadable), (3, b"", "polytwkb: read failed\n"))
            self.assertEqual(run("unpack", "--geojson", stdin=unreadable), (3, b"", "polytwkb: read failed\n"))
        with open("/dev/full", "wb") as full:
            self.assertEqual(run("unpack", input=b"", stdout=full), (3, None, "polytwkb: write failed\n"))


if __name__ == "__main__":
    unittest.main()
