"""The filter that hands on whole lines alone."""
import subprocess
import sys
import unittest
from typing import Any

from liq.service import find_program

from .market import TOP, OverProgram

WORDS = [sys.executable, "-m", "liq.whole"]


class Lines(OverProgram):
    def ran(self, data: bytes) -> "subprocess.CompletedProcess[bytes]":
        return subprocess.run(WORDS, input=data, capture_output=True, cwd=TOP / "clients/python", timeout=60)

    def begun(self, **streams: Any) -> "subprocess.Popen[bytes]":
        process = subprocess.Popen(WORDS, stdin=subprocess.PIPE, cwd=TOP / "clients/python", bufsize=0, **streams)
        self.addCleanup(process.wait)
        self.addCleanup(process.kill)
        return process

    def test_whole_lines(self) -> None:
        long = b"x" * 200_000 + b"\n" + b"y\n" * 100_000
        for data in (b"", b"\n", b"1 1 fund 1 5\n", b"a\n\nb\n", b"\0\xff\r\n", long):
            ran = self.ran(data)
            self.assertEqual((ran.stdout, ran.stderr, ran.returncode), (data, b"", 0))

    def test_a_line_that_was_cut(self) -> None:
        for data, cut in ((b"", b"1 2 fund 1 100"), (b"1 1 fund 1 5\n", b"1"), (b"x\n" * 50_000, b"y" * 200_000)):
            ran = self.ran(data + cut)
            self.assertEqual((ran.stdout, ran.returncode), (data, 1))
            self.assertEqual(ran.stderr.decode(),
                f"whole: the last line was cut behind {len(cut)} bytes, and is not handed on\n")

    def test_each_line_as_soon_as_it_is_whole(self) -> None:
        process = self.begun(stdout=subprocess.PIPE)
        assert process.stdin and process.stdout
        for _ in range(3):
            process.stdin.write(b"1 1 fund")
            process.stdin.write(b" 1 5\n1 2 f")
            self.assertEqual(process.stdout.read(64), b"1 1 fund 1 5\n")
            process.stdin.write(b"und 1 6\n")
            self.assertEqual(process.stdout.read(64), b"1 2 fund 1 6\n")
        process.stdin.close()
        self.assertEqual(process.wait(60), 0)

    def test_nobody_reads(self) -> None:
        process = self.begun(stdout=subprocess.PIPE, stderr=subprocess.PIPE)
        assert process.stdin and process.stdout and process.stderr
        process.stdout.close()
        process.stdin.write(b"line\n")
        self.assertEqual((process.wait(60), process.stderr.read()), (1, b"whole: nobody reads the lines any more\n"))

    def test_a_number_that_is_cut_does_not_count(self) -> None:
        """In front of a run: without the filter liq answers the front of the number with `ok`."""
        cut = b"1 1 fund 1 5\n1 2 fund 1 100"
        for data, wanted in ((cut, b"ok\nok\n105 0\n"), (self.ran(cut).stdout, b"ok\n5 0\n")):
            folder = self.folder / str(len(data))
            folder.mkdir()
            said = [subprocess.run([find_program(), "run"], input=it, cwd=folder, stdout=subprocess.PIPE).stdout
                for it in (data, b"? wallet 1\n")]
            self.assertEqual(b"".join(said), wanted)


if __name__ == "__main__":
    unittest.main()
