"""What the guard says of files that scripts/make-disks makes, which knows the formats alone, and of those of the program."""
import contextlib
import errno
import fcntl
import hashlib
import io
import os
import random
import subprocess
import sys
import time
import unittest
from pathlib import Path
from typing import Dict, Iterator, List, Optional, Tuple
from unittest import mock

from liq import Journal, guard
from liq.ends import Damaged
from liq.journal import SIDES, holds_journal
from liq.progress import Bar
from liq.words import state

from .market import PROGRAM, TOP, InFolder, OverProgram
from .market import forged as files_after

Pair = Dict[str, bytes]
FUNDS = [f"1 {number} fund {number} {number}" for number in range(1, 7)]
BEGIN = 65  # the place of the first record's gate in generation 1 of version 2


def gate_of(record: int, begin: int = BEGIN) -> int:
    """The place of a record's gate."""
    return begin + 129 * (record - 1)


def forged(lines: List[str], versions: str = "2") -> Pair:
    """Both files after these commands."""
    return files_after(versions, lines)


class NoFolder(InFolder):
    def test_a_folder_that_is_not_there(self) -> None:
        """liq begins no market in it."""
        (self.folder / "file").write_text("")
        for name in ("none", "file"):
            path = self.folder / name
            self.assertEqual([line.text for line in guard.guard(path)], [f"{path} is no folder: liq can't begin there"])


class Looking(InFolder):
    """A case that looks at files."""

    def put(self, pair: Pair) -> None:
        for side, data in pair.items():
            (self.folder / f"{side}.liq").write_bytes(data)

    def turn(self, side: str, place: int, value: int) -> None:
        """Sets a byte."""
        with (self.folder / f"{side}.liq").open("r+b") as file:
            file.seek(place)
            file.write(bytes([value]))

    def said(self) -> Tuple[List[str], List[str]]:
        """What is found, and what a stop leaves."""
        lines = guard.look(self.folder).lines
        return [line.text for line in lines if line.is_finding], [line.text for line in lines if not line.is_finding]

    def says(self, *beginnings: str) -> None:
        """Sees to it that the findings begin so, and that a stop leaves nothing."""
        found, stops = self.said()
        self.assertEqual(stops, [])
        self.assertEqual([text[: len(begins)] for text, begins in zip(found, beginnings)], list(beginnings), found)
        self.assertEqual(len(found), len(beginnings), found)

    def run_guard(self, *words: str) -> Tuple[int, str]:
        """The status of a call, and what it writes."""
        written = io.StringIO()
        with contextlib.redirect_stdout(written):
            status = guard.main([*words, str(self.folder)])
        return status, written.getvalue()


class Gates(Looking):
    """What stands behind a gate that is shut."""

    def test_a_sound_market(self) -> None:
        for versions in ("1", "12", "2"):
            for lines in ([], FUNDS, [*FUNDS, "2 1 rotate"], [*FUNDS, "2 1 rotate", "2 2 fund 1 1", "2 3 rotate"]):
                self.put(forged(lines, versions))
                with self.subTest(versions=versions, lines=lines):
                    self.assertEqual(self.said(), ([], []))
                    self.assertEqual(self.run_guard(), (0, ""))

    def test_the_header_s_gate(self) -> None:
        self.put(forged(FUNDS))
        for value in (0, 2, 255):
            self.turn("left", 0, value)
            begins = f"left.liq: behind its first byte, {value}, stands generation 1 whole, with 6 records. No stop"
            self.says(begins, "no journal in ")
        self.assertEqual(self.run_guard()[0], 1)

    def test_a_gate_in_the_middle(self) -> None:
        pair = forged(FUNDS)
        for value in (0, 3, 254):
            for record in range(1, 6):
                self.put(pair)
                self.turn("left", gate_of(record), value)
                begins = f"left.liq: the gate of record {record}, at {gate_of(record)}, is {value}, and {7 - record} "
                self.says(f"{begins}whole records stand behind it. No stop leaves that")

    def test_the_last_gate(self) -> None:
        self.put(forged(FUNDS))
        self.turn("left", gate_of(6), 5)
        self.says("left.liq: the gate of record 6, at 710, is 5, and 1 whole record stands behind it. No stop")
        self.turn("left", gate_of(6), 0)
        found, stops = self.said()
        self.assertEqual((found, len(stops)), ([], 1))
        self.assertIn("stands record 6, 1 6 fund 6 6. A stop leaves", stops[0])
        self.assertEqual(self.run_guard(), (0, stops[0] + "\n"))

    def test_a_gate_in_front_of_nothing(self) -> None:
        self.put(forged(FUNDS))
        self.turn("left", gate_of(7), 9)
        self.says("left.liq: the gate behind the last record, at 839, is 9, and liq writes 0 or 1")
        self.turn("left", gate_of(7), 1)
        self.says("left.liq: it ends in record 7 or at its gate, at 839, and was cut short")

    def test_a_hole_between_records(self) -> None:
        pair = forged(FUNDS)
        self.put(pair)
        (self.folder / "left.liq").write_bytes(pair["left"][: gate_of(3)] + bytes(2 * 129) + pair["left"][gate_of(5) :])
        self.says("left.liq: record 3, at 323, is not whole, and 2 whole records stand behind it. No stop")
        self.assertEqual(self.run_guard("--mend")[1].splitlines()[0], "there is no gate to open")

    def test_a_file_that_was_cut_short(self) -> None:
        pair = forged([*FUNDS, "2 1 rotate", "2 2 fund 1 1"])
        for count in (1, 40, 56):
            self.put({**pair, "right": pair["right"][:count]})
            self.says(f"right.liq: it has {count} byte")
        for count in (57, 64, 65, 300):
            self.put({**pair, "right": pair["right"][:count]})
            self.says("right.liq: it is damaged at 0: bytes are missing: bring back a copy")
        for count in (2, 129, 130):
            self.put({**pair, "right": pair["right"][:-count]})
            self.says("right.liq: it ends in record 1 or at its gate, at ")
        self.put({**pair, "right": pair["right"][:-1]})
        self.says("right.liq: it ends in record 2 or at its gate, at ")

    def test_the_newer_generation_s_gate(self) -> None:
        pair = forged([*FUNDS, "2 1 rotate", "2 2 fund 1 1"])
        self.put(pair)
        self.turn("right", 0, 0)
        self.says("right.liq: behind its first byte, 0, stands generation 2 whole, with 1 record. No stop leaves that")
        self.put(forged([*FUNDS, "2 1 rotate"]))
        self.turn("right", 0, 0)
        found, stops = self.said()
        self.assertEqual((found, len(stops)), ([], 1))
        self.assertIn("generation 2 whole, without a record. A stop leaves that of a rotation of gen", stops[0])
        self.turn("right", 0, 8)
        self.says("right.liq: behind its first byte, 8, stands generation 2 whole, with 0 records. No stop")

    def test_the_older_generation_s_gate(self) -> None:
        self.put(forged([*FUNDS, "2 1 rotate", "2 2 fund 1 1"]))
        self.turn("left", 0, 0)
        found, stops = self.said()
        self.assertEqual((found, len(stops)), ([], 1))
        self.assertIn("generation 1 whole. A stop as a rotation begins leaves that. Generation 2", stops[0])
        self.turn("left", 0, 7)
        self.says("left.liq: behind its first byte, 7, stands generation 1 whole. No stop leaves that. Generation 2")

    def test_a_gate_of_the_older_generation_s_records(self) -> None:
        self.put(forged([*FUNDS, "2 1 rotate", "2 2 fund 1 1"]))
        self.turn("left", gate_of(2), 0)
        begins = "left.liq: the gate of record 2, at 194, is 0, and 5 whole records stand behind it."
        self.says(f"{begins} No stop leaves that. Generation 2 counts and lacks nothing")
        self.turn("left", gate_of(2), 1)
        self.turn("left", gate_of(6), 0)
        found, stops = self.said()
        self.assertEqual((found, len(stops)), ([], 1))
        self.assertIn("that was not answered. Generation 2 counts and lacks nothing", stops[0])

    def test_a_generation_that_no_stop_leaves_beside_the_other(self) -> None:
        first, second = forged(FUNDS), forged([*FUNDS, "2 1 rotate", "2 2 rotate", "2 3 rotate"])
        self.put({"left": first["left"], "right": b"\0" + second["right"][1:]})
        self.says("right.liq: behind its first byte, 0, stands generation 4 whole, with 0 records. No stop")
        self.put({"left": b"\0" + first["left"][1:], "right": second["right"]})
        self.says("left.liq: behind its first byte, 0, stands generation 1 whole. No stop leaves that. Generation 4")

    def test_bytes_of_an_older_generation_have_no_meaning(self) -> None:
        """A longer journal stood in the file before, and its records are at places of their own or at the same ones."""
        longer = [f"1 {number} fund 1 1" for number in range(1, 21)]
        pair = forged([*longer, "2 1 rotate", "2 2 rotate", "2 3 fund 1 1"])
        tail = pair["left"]
        self.assertEqual(len(tail), 65 + 20 * 129 + 1)
        self.put(pair)
        self.assertEqual(self.said(), ([], []))
        begin = Journal(self.folder).current.begin
        older = forged(longer)["left"]
        whole = tail[: begin + 130] + older[66 : 65 + 129] + older[65 + 129 : 65 + 20 * 129]
        self.put({**pair, "left": whole})  # whole records of generation 1 where those of generation 3 would stand
        self.assertEqual(self.said(), ([], []))

    def test_damage_is_told_with_the_file_that_counts(self) -> None:
        self.put(forged([*FUNDS, "2 1 rotate"]))
        self.turn("left", gate_of(4) + 20, 77)
        self.says(
            "left.liq: it is damaged at 4: its digest is another. Generation 2, in right.liq, counts and is sound: this"
            " older file may be moved away"
        )
        self.put(forged([*FUNDS, "2 1 rotate", "2 2 fund 1 1"]))
        self.turn("right", len(forged([*FUNDS, "2 1 rotate"])["right"]) + 20, 77)
        self.says("right.liq: it is damaged at 1: its digest is another: bring back a copy")

    def test_no_journal(self) -> None:
        none = f"no journal in {self.folder}: liq would begin a new market there"
        self.says(none)
        self.put({"left": b"", "right": b""})
        self.says(none)
        self.put({"left": b"some text of somebody, as long as a header is, or longer than it", "right": b""})
        self.says("left.liq: its first byte is 115, and liq writes 0 or 1", none)
        self.assertEqual(self.run_guard()[0], 1)

    def test_a_missing_file(self) -> None:
        self.put(forged([*FUNDS, "2 1 rotate"]))
        (self.folder / "right.liq").unlink()
        self.says("right.liq: it is missing")

    def test_each_byte_that_is_turned_is_told(self) -> None:
        """By a line of the guard. What is behind the last gate means nothing, and is not told."""
        lines = [*FUNDS, "2 1 rotate", "2 2 fund 1 1", "2 3 rotate", "2 4 fund 2 2"]
        pair = forged(lines)
        self.put(pair)
        ends = {f"{disk.path.stem}": disk.end for disk in Journal(self.folder).chain}
        sound = Journal(self.folder)
        self.assertEqual([disk.generation for disk in sound.chain], [2, 3])
        silent, stops, found = set(), set(), 0
        for side, data in pair.items():
            for place, byte in enumerate(data):
                for mask in (1, 255):
                    self.turn(side, place, byte ^ mask)
                    told = guard.look(self.folder).lines
                    found += any(line.is_finding for line in told)
                    if not told:
                        silent.add((side, place))
                        self.assertEqual(Journal(self.folder).lines, sound.lines)
                    elif not any(line.is_finding for line in told):
                        stops.add((side, place, mask))
                self.turn(side, place, byte)
        tail = {("left", place) for place in range(ends["left"] + 1, len(pair["left"]))}
        self.assertEqual((silent, len(tail)), (tail, len(pair["left"]) - ends["left"] - 1))
        self.assertGreater(len(tail), 100)
        self.assertEqual(stops, {("left", ends["left"] - 129, 1), ("right", ends["right"] - 129, 1), ("right", 0, 1)})
        self.assertEqual(found, 2 * (sum(map(len, pair.values())) - len(tail)) - 3)

    def test_what_any_stop_leaves_is_no_finding(self) -> None:
        """Each write of the format, torn anywhere: the bytes behind a gate that is shut, and then the gate."""
        lines = [*FUNDS, "2 1 rotate", "2 2 fund 1 1", "2 3 rotate", "2 4 fund 2 2", "2 5 rotate", "2 6 fund 3 3"]
        chance = random.Random(5)
        images = kept = 0
        stages = [forged(lines[:count]) for count in range(len(lines) + 1)]
        for before, after in zip(stages, stages[1:]):
            for image in torn(before, after, chance):
                images += 1
                self.put(image)
                found, stops = self.said()
                self.assertEqual(found, [])
                kept += len(stops)
        self.assertGreater(images, 400)
        self.assertGreater(kept, 10)


def torn(before: Pair, after: Pair, chance: random.Random) -> Iterator[Pair]:
    """What a stop may leave between two pairs of files: the gate is shut, or was, all behind it is written, in any
    part, and then the gate."""
    side = next(side for side in SIDES if before[side] != after[side])
    old, new = before[side], after[side]
    places = [place for place in range(len(new)) if place >= len(old) or old[place] != new[place]]
    gate = 0 if old[:65] != new[:65] else places[0]
    shut = old[:gate] + b"\0" + old[gate + 1 :]
    full = new[:gate] + b"\0" + new[gate + 1 :]
    yield {**before, side: shut}
    yield {**before, side: full}
    for _ in range(40):
        count = chance.randint(gate + 1, len(full))
        written = bytearray(full[:count] if count > len(shut) else full[:count] + shut[count:])
        if chance.randrange(2):  # pieces of it in any order
            for place in range(gate + 1, min(len(written), len(shut))):
                if place // 64 % 2:
                    written[place] = shut[place]
        yield {**before, side: bytes(written)}


class Notes(Looking):
    """A market beside a note of an earlier look."""

    def setUp(self) -> None:
        super().setUp()
        self.note = str(self.folder / "note")

    def test_a_note_is_made_and_renewed(self) -> None:
        self.put(forged(FUNDS[:4]))
        self.assertEqual(self.run_guard("--note", self.note), (0, ""))
        title, *first = Path(self.note).read_text().splitlines()
        digest = forged(FUNDS[:4])["left"][gate_of(5) - 32 : gate_of(5)].hex()
        counts = hashlib.sha256(forged(FUNDS[:4])["left"][: gate_of(5)] + b"\0").hexdigest()
        rows = ["generation 1", "records 4", f"digest {digest}", f"sha256 {counts}", "before -", "numbers 1:4"]
        self.assertEqual(first, rows)
        self.assertTrue(title.startswith("liq.guard 2: "))
        self.assertEqual(Path(self.note).stat().st_mode & 0o777, 0o600)
        self.put(forged(FUNDS))
        self.assertEqual(self.run_guard("--note", self.note), (0, ""))
        self.assertEqual(Path(self.note).read_text().splitlines()[1:3], ["generation 1", "records 6"])
        self.assertEqual(sorted(os.listdir(self.folder)), ["left.liq", "note", "right.liq"])

    def behind(self, begins: str) -> None:
        kept = Path(self.note).read_bytes()
        status, said = self.run_guard("--note", self.note)
        self.assertEqual(status, 1)
        self.assertTrue(said.splitlines()[-1].startswith(begins), said)
        self.assertEqual(Path(self.note).read_bytes(), kept)

    def test_a_note_that_is_another_users(self) -> None:
        """It is no note of this program: a stranger's may be one of an older market."""
        self.put(forged(["1 1 fund 1 5"]))
        note = self.folder / "note"
        self.assertEqual(guard.guard(self.folder, note), [])
        kept = note.read_text()
        (self.folder / "kept").write_text(kept)
        links = lambda: note.symlink_to("kept"), lambda: os.link(self.folder / "kept", note)
        for spoil in (*links, lambda: self.loose(note, kept)):
            note.unlink()
            spoil()
            (said,) = guard.guard(self.folder, note)
            self.assertTrue(said.is_finding and said.text.startswith(f"the note: {note}: it is "), said)
            self.assertEqual(note.read_text(), kept)
        note.unlink()
        self.folder.chmod(0o1777)
        self.addCleanup(self.folder.chmod, 0o700)
        self.assertIn("others may write it", guard.guard(self.folder, note)[-1].text)
        self.assertFalse(note.exists())

    @staticmethod
    def loose(path: Path, text: str) -> None:
        path.write_text(text)
        path.chmod(0o666)

    def test_a_market_behind_its_note(self) -> None:
        self.put(forged(FUNDS))
        self.run_guard("--note", self.note)
        self.put(forged(FUNDS[:5]))
        self.behind("behind the note: it has generation 1 with 6 records, and the folder 5 records of it")
        self.put(forged([*FUNDS[:5], "1 6 fund 6 7"]))
        self.behind("another history: record 6 of generation 1 is not that of the note")
        self.put(forged([*FUNDS[:5], "1 6 fund 6 7", "2 1 rotate"]))
        self.behind("another history: record 6 of generation 1")
        self.put({"left": b"", "right": b""})
        self.behind("behind the note: it has generation 1 with 6 records, and the folder no journal")
        self.put(forged([*FUNDS, "2 1 rotate"]))
        self.assertEqual(self.run_guard("--note", self.note), (0, ""))
        self.put({"left": forged(FUNDS)["left"], "right": b""})
        self.behind("behind the note: it has generation 2 with 0 records, and the folder generation 1")
        self.put(forged([*FUNDS[:5], "2 1 rotate", "2 2 fund 1 1"]))
        self.behind("another history: the header of generation 2")

    def test_a_note_that_two_rotations_passed(self) -> None:
        self.put(forged(FUNDS))
        self.run_guard("--note", self.note)
        self.put(forged([*FUNDS, "2 1 rotate", "2 2 rotate"]))
        status, said = self.run_guard("--note", self.note)
        self.assertEqual(status, 0)
        self.assertIn("the note has generation 1 with 6 records, which later rotations wrote over", said)
        self.assertEqual(Path(self.note).read_text().splitlines()[1:3], ["generation 3", "records 0"])
        for lines, last in ((["7 1 fund 7 7", "7 2 rotate", "7 3 rotate"], 0), (["1 1 rotate", "1 2 rotate"], 2)):
            self.put(forged(FUNDS))
            Path(self.note).unlink()
            self.run_guard("--note", self.note)
            self.put(forged(lines))
            self.behind(f"another history: client 1's last number is {last}, and it was 6")

    def test_a_note_that_another_guard_renews_meanwhile(self) -> None:
        """The note is older than the look, so what was added since is no finding."""
        self.put(forged(FUNDS[:4]))
        self.run_guard("--note", self.note)

        def slowly(folder: Path, bar: Optional[Bar] = None, note: Optional[guard.Note] = None) -> guard.Look:
            found = look(folder, bar, note)
            guard.write_note(self.note, newer)
            return found

        look = guard.look
        found = look(self.folder)
        newer = guard.Note(1, 6, "0" * 64, "1" * 64, numbers=((1, 6),))
        self.assertIsNotNone(guard.behind(found, newer))
        with mock.patch.object(guard, "look", slowly):
            self.assertEqual(guard.guard(self.folder, self.note), [])

    def test_a_record_that_was_written_anew(self) -> None:
        """Records are not chained: an earlier one may have another command and the digest that belongs to it."""
        self.put(forged(FUNDS))
        self.run_guard("--note", self.note)
        self.put(forged(["1 1 fund 1 1", "1 2 fund 2 200", *FUNDS[2:]]))
        self.assertEqual(self.said(), ([], []))
        self.behind("another history: what stands in front of it in generation 1 is not that of the note")
        self.put(forged([*FUNDS, "1 7 fund 7 7", "2 1 rotate"]))
        self.assertEqual(self.run_guard("--note", self.note), (0, ""))
        others = forged(["1 1 fund 1 2", *FUNDS[1:]])["left"]
        self.put({**forged([*FUNDS, "1 7 fund 7 7", "2 1 rotate"]), "left": others})
        self.behind("right.liq: generation 1 does not lead to it: ")

    def test_a_note_of_the_older_form(self) -> None:
        """It had the last record's digest alone. It is compared, and then written anew."""
        digest = forged(FUNDS)["left"][gate_of(7) - 32 : gate_of(7)].hex()
        older = f"{guard.OLD_TITLE}\ngeneration 1\nrecords 6\ndigest {digest}\n"
        Path(self.note).write_text(older)
        self.put(forged(FUNDS[:5]))
        self.behind("behind the note: it has generation 1 with 6 records")
        self.put(forged(FUNDS))
        told = "the note is of an older form, with one record's digest alone: it gets a sum over all\n"
        self.assertEqual(self.run_guard("--note", self.note), (0, told))
        self.assertEqual(self.run_guard("--note", self.note), (0, ""))
        self.assertIn("\nsha256 ", Path(self.note).read_text())

    def test_a_finding_that_is_accepted(self) -> None:
        """By the operator's word alone, who has read each line."""
        self.put(forged(FUNDS))
        self.run_guard("--note", self.note)
        self.put(forged(FUNDS[:5]))
        for _ in range(2):
            self.behind("behind the note: ")
        status, said = self.run_guard("--note", self.note, "--accept")
        told = f"{self.note}: it is written over that. What is said now:"
        self.assertEqual((status, said.splitlines()[-1]), (0, told))
        self.assertEqual(self.run_guard("--note", self.note), (0, ""))
        with contextlib.redirect_stderr(io.StringIO()):
            self.assertRaises(SystemExit, self.run_guard, "--accept")

    def test_a_last_gate_that_rotted_stands_behind_the_note(self) -> None:
        self.put(forged(FUNDS))
        self.run_guard("--note", self.note)
        self.turn("left", gate_of(6), 0)
        self.behind("behind the note")
        status, said = self.run_guard("--note", self.note, "--mend")
        self.assertEqual((status, said.splitlines()[-1]), (0, "left.liq: the gate at 710 is open"))
        self.assertEqual((self.folder / "left.liq").read_bytes(), forged(FUNDS)["left"])

    def test_what_is_no_note(self) -> None:
        self.put(forged(FUNDS))
        for text in ("", "some text", "\n".join(["x", "generation 1", "records 6", "digest 00", ""]), "a\n" * 10**6):
            Path(self.note).write_text(text)
            self.behind("the note: ")
        os.unlink(self.note)
        os.mkfifo(self.note)
        self.assertEqual(self.run_guard("--note", self.note)[0], 1)
        self.assertEqual(self.run_guard("--note", str(self.folder / "none" / "note"))[0], 1)


class Beside(Looking):
    """Two files, each of which is sound."""

    def setUp(self) -> None:
        super().setUp()
        self.note = str(self.folder / "note")

    def mixed(self, older: List[str], newer: List[str], side: str = "right") -> None:
        """The files after some lines, one of which is that after others."""
        self.put({**forged(older), side: forged(newer)[side]})

    def found(self, *words: str) -> List[str]:
        """What is found, and sees to it that a note is neither made nor written over it."""
        kept = Path(self.note).read_bytes() if Path(self.note).exists() else None
        status, said = self.run_guard("--note", self.note, *words)
        self.assertEqual((Path(self.note).read_bytes() if Path(self.note).exists() else None), kept)
        self.assertEqual(status, 1, said)
        return said.splitlines()

    def test_files_of_two_markets(self) -> None:
        mine, other = FUNDS, ["7 1 fund 7 70", "7 2 rotate"]
        self.put(forged(mine))
        self.run_guard("--note", self.note)
        self.mixed(mine, other)
        (said,) = self.found()
        self.assertTrue(said.startswith("right.liq: generation 1 does not lead to it: no 70 1 to 7 2 rotate; "), said)
        self.assertTrue(said.endswith("these are not two files of one market: bring back both of one copy"))
        (said,) = self.found("--quick")
        self.assertIn("client 1's last number is 0 in it, and 6 behind the commands of generation 1", said)

    def test_a_fork_with_as_many_commands_of_each_client(self) -> None:
        """A quick look lets that pass."""
        mine, other = [*FUNDS, "2 1 rotate"], [*FUNDS[:5], "1 6 fund 6 7", "2 1 rotate"]
        self.mixed(mine, other)
        self.assertIn("brought: it has 22, and the commands lead to 21; these are not two", self.found()[0])
        told = "the note stays: a quick look doesn't show that both files belong together\n"
        self.assertEqual(self.run_guard("--note", self.note, "--quick"), (0, told))
        self.assertFalse(Path(self.note).exists())

    def test_what_is_accepted_is_not_carried_out_again(self) -> None:
        self.mixed([*FUNDS, "2 1 rotate"], [*FUNDS[:5], "1 6 fund 6 7", "2 1 rotate"])
        self.found()
        self.assertEqual(self.run_guard("--note", self.note, "--accept")[0], 0)
        self.assertEqual(self.run_guard("--note", self.note), (0, ""))

    def test_two_files_are_carried_out_once(self) -> None:
        lines = [*FUNDS, "2 1 rotate", "1 7 fund 1 1"]
        with mock.patch.object(guard, "unlinked", wraps=guard.unlinked) as carried_out:
            for count in (7, 8, 8):
                self.put(forged(lines[:count]))
                self.assertEqual(self.run_guard("--note", self.note), (0, ""))
            self.assertEqual(carried_out.call_count, 1)
            self.put(forged([*lines, "2 2 rotate"]))
            self.assertEqual(self.run_guard("--note", self.note), (0, ""))
            self.assertEqual(carried_out.call_count, 2)

    def test_generations_that_do_not_adjoin(self) -> None:
        later = [*FUNDS, "2 1 rotate", "2 2 rotate", "2 3 rotate"]
        self.mixed(FUNDS, later)
        said = self.found()[0]
        begins = "left.liq: it is of generation 1, and beside generation 4 a rotation leaves 3; "
        self.assertTrue(said.startswith(begins), said)

    def test_an_empty_file_beside_a_later_generation(self) -> None:
        self.put({**forged([*FUNDS, "2 1 rotate"]), "left": b""})
        told = "left.liq: it is empty beside generation 2, so generation 1 is on no file. The next rotation takes it\n"
        self.assertEqual(self.run_guard("--note", self.note), (0, told))
        self.put({**forged(FUNDS), "right": b""})
        self.assertEqual(self.said(), ([], []))


class Settled(Looking):
    """liq opens a gate before it syncs it, so nothing is said of a record that a loss of power may take back."""

    def test_what_is_read_is_synced_before_anything_is_said(self) -> None:
        self.put(forged([*FUNDS, "2 1 rotate", "1 7 fund 1 1"]))
        note, synced, sync = self.folder / "note", [], os.fsync

        def noted(descriptor: int) -> None:
            synced.append(os.fstat(descriptor).st_ino)
            self.assertFalse(note.exists())
            sync(descriptor)

        files = {(self.folder / f"{side}.liq").stat().st_ino for side in SIDES}
        with mock.patch("os.fsync", noted):
            found = guard.judged(self.folder)
        self.assertEqual((found.lines, set(synced)), ([], files))

    def test_a_sync_that_fails_is_said_and_nothing_else(self) -> None:
        self.put(forged(FUNDS[:5]))
        self.turn("left", gate_of(3), 7)
        with mock.patch("os.fsync", side_effect=OSError(errno.EIO, "Input/output error")):
            self.assertEqual(self.run_guard(), (1, "the guard can't look: [Errno 5] Input/output error\n"))
            self.assertRaises(OSError, Journal, self.folder)
            self.assertRaises(OSError, holds_journal, self.folder)

    def test_what_cannot_be_synced_is_let_through(self) -> None:
        self.put(forged(FUNDS))
        with mock.patch("os.fsync", side_effect=OSError(errno.EINVAL, "Invalid argument")):
            self.assertEqual(self.run_guard(), (0, ""))
            self.assertEqual(len(Journal(self.folder).lines), 6)


class OfWhat(Looking):
    """The program that would be run."""

    def test_a_program_that_was_not_built_from_proofs(self) -> None:
        self.put(forged(FUNDS))
        program = os.path.realpath(sys.executable)
        with mock.patch.dict(os.environ, {"LIQ_PROGRAM": program}):
            told = f"{program} was not built from proofs: see what `liq version` says of it\n"
            self.assertEqual(self.run_guard(), (0, told))
        for other in ("/bin/false-program", str(TOP / "bin/liq")):
            with mock.patch.dict(os.environ, {"LIQ_PROGRAM": other}):
                self.assertEqual(self.run_guard(), (0, ""))


class Mended(Looking):
    """Gates that are opened again."""

    def setUp(self) -> None:
        super().setUp()
        self.opens = mock.patch("liq.guard.open_copy", return_value=None)  # the bytes alone are read
        self.opens.start()
        self.addCleanup(self.opens.stop)

    def mends(self, pair: Pair, *words: str) -> List[str]:
        """Sees to it that the files are as they were, but for nothing."""
        status, said = self.run_guard("--mend", *words)
        self.assertEqual(status, 0, said)
        self.assertEqual({side: (self.folder / f"{side}.liq").read_bytes() for side in SIDES}, pair)
        return said.splitlines()

    def test_each_gate_comes_back(self) -> None:
        pair = forged([*FUNDS, "2 1 rotate", "2 2 fund 1 1", "2 3 fund 1 1"])
        second = len(forged([*FUNDS, "2 1 rotate"])["right"]) - 1
        for side, places in (("left", [0]), ("left", [gate_of(2)]), ("right", [0]), ("right", [second])):
            for place in places:
                for value in (0, 2):
                    if (side, place, value) == ("left", 0, 0):
                        continue  # a stop leaves that
                    self.put(pair)
                    self.turn(side, place, value)
                    self.assertEqual(self.mends(pair)[-1], f"{side}.liq: the gate at {place} is open")

    def test_many_gates_of_both_files(self) -> None:
        pair = forged([*FUNDS, "2 1 rotate", "2 2 fund 1 1", "2 3 fund 1 1"])
        self.put(pair)
        for place in (0, gate_of(1), gate_of(4), gate_of(6)):
            self.turn("left", place, 4)
            self.turn("right", 0, 0)
        said = self.mends(pair)
        self.assertEqual(said[0], "a copy with the gates open has journal 2 2, and the files have no journal")
        self.assertEqual(len(said), 7)

    def test_a_dry_run_writes_nothing(self) -> None:
        self.put(forged(FUNDS))
        self.turn("left", gate_of(3), 0)
        before = (self.folder / "left.liq").read_bytes()
        status, said = self.run_guard("--mend", "--dry-run")
        self.assertEqual(status, 1)
        self.assertIn("a copy with the gates open has journal 1 6, and the files have journal 1 2\n", said)
        self.assertIn("\nnothing was written\n", said)
        self.assertEqual((self.folder / "left.liq").read_bytes(), before)

    def test_what_a_stop_leaves_is_opened_where_it_was_answered(self) -> None:
        pair = forged(FUNDS)
        self.put(pair)
        self.turn("left", gate_of(6), 0)
        self.assertIn("there is no gate to open\n", self.run_guard("--mend")[1])
        self.assertEqual(self.mends(pair, "--answered")[-1], "left.liq: the gate at 710 is open")
        pair = forged([*FUNDS, "2 1 rotate"])
        self.put(pair)
        self.turn("right", 0, 0)
        self.assertIn("there is no gate to open\n", self.run_guard("--mend")[1])
        self.assertEqual(self.mends(pair, "--answered")[-1], "right.liq: the gate at 0 is open")

    def test_a_stop_behind_a_gate_that_rotted_stays(self) -> None:
        pair = forged(FUNDS)
        self.put(pair)
        self.turn("left", gate_of(2), 6)
        self.turn("left", gate_of(6), 0)
        status, said = self.run_guard("--mend")
        self.assertEqual(status, 0)
        self.assertIn("left.liq: the gate at 194 is open", said)
        self.assertEqual(Journal(self.folder).lines, FUNDS[:5])

    def test_commands_that_came_since_are_not_hidden(self) -> None:
        newer = forged([*FUNDS, "2 1 rotate"])["right"]
        for line in ("1 7 fund 1 1", "2 1 fund 1 1", "9 1 fund 1 1"):
            pair = {"left": forged([*FUNDS, line])["left"], "right": b"\0" + newer[1:]}
            for value, words in ((0, ["--answered"]), (4, [])):
                self.put({**pair, "right": bytes([value]) + newer[1:]})
                status, said = self.run_guard("--mend", *words)
                self.assertEqual(status, 1)
                self.assertIn("generation 1 took commands while generation 2 was shut", said)
                self.assertEqual((self.folder / "right.liq").read_bytes()[0], value)

    def test_a_copy_that_is_not_sound(self) -> None:
        self.put(forged(FUNDS))
        self.turn("left", gate_of(2), 0)
        self.turn("left", gate_of(4) + 9, 99)
        status, said = self.run_guard("--mend")
        self.assertEqual(status, 1)
        self.assertIn("so it is not sound, and nothing was written", said)
        self.assertEqual((self.folder / "left.liq").read_bytes()[gate_of(2)], 0)
        self.put(forged(FUNDS))
        self.turn("left", gate_of(2), 0)
        with mock.patch("liq.guard.open_copy", side_effect=Damaged(6, "damaged left 3")):
            status, said = self.run_guard("--mend")
        self.assertEqual(status, 1)
        self.assertIn("over it liq ended with 6, damaged left 3, and nothing was written", said)
        self.assertEqual((self.folder / "left.liq").read_bytes()[gate_of(2)], 0)

    def test_files_that_a_run_holds(self) -> None:
        self.put(forged(FUNDS))
        self.turn("left", gate_of(2), 0)
        for side in SIDES:
            with (self.folder / f"{side}.liq").open("rb") as file:
                fcntl.flock(file, fcntl.LOCK_EX)
                status, said = self.run_guard("--mend")
            self.assertEqual(status, 1)
            self.assertIn(f"guard opens no gate: a run holds {self.folder}/{side}.liq", said)
        self.assertEqual((self.folder / "left.liq").read_bytes()[gate_of(2)], 0)


class Files(Looking):
    """What a file is, whose, and under which names. Nothing is waited for."""

    def setUp(self) -> None:
        super().setUp()
        self.put(forged([*FUNDS, "2 1 rotate"]))
        self.left, self.right = self.folder / "left.liq", self.folder / "right.liq"

    def test_what_an_owner_does(self) -> None:
        self.left.chmod(0o664)
        kept = self.folder / "elsewhere"
        kept.mkdir()
        self.right.rename(kept / "right")
        self.right.symlink_to("elsewhere/right")
        self.assertEqual(self.run_guard(), (0, ""))

    def test_who_may_write(self) -> None:
        self.left.chmod(0o646)
        self.says("left.liq: every user may write it")

    def test_what_is_no_file(self) -> None:
        self.left.unlink()
        for make in (
            lambda: os.mkfifo(self.left), self.left.mkdir, lambda: self.left.symlink_to("/dev/zero"),
            lambda: self.left.symlink_to("/dev/tty"),
        ):
            make()
            self.says("left.liq: it is no regular file")
            if self.left.is_dir():
                self.left.rmdir()
            else:
                self.left.unlink()
        for target in ("nothing", "left.liq"):
            self.left.symlink_to(target)
            self.says("left.liq: it is a link to nothing")
            self.left.unlink()

    def test_names_of_one_file(self) -> None:
        os.link(self.left, self.folder / "other")
        self.says("left.liq: the file has 2 names")
        os.unlink(self.folder / "other")
        self.right.unlink()
        self.right.symlink_to("left.liq")
        self.assertIn("right.liq: it is the same file as left.liq", self.said()[0])
        self.right.unlink()
        os.link(self.left, self.right)
        self.assertIn("right.liq: it is the same file as left.liq", self.said()[0])

    def test_whose_they_are(self) -> None:
        with mock.patch("os.geteuid", return_value=os.geteuid() + 1):
            found = self.said()[0]
        self.assertEqual([text[:26] for text in found], ["left.liq: it belongs to us", "right.liq: it belongs to u"])
        with mock.patch("os.geteuid", return_value=0):
            self.assertEqual(self.said(), ([], []))

    @unittest.skipUnless(os.geteuid() == 0, "a link of another user wants root")
    def test_a_link_of_another_user(self) -> None:
        self.left.rename(self.folder / "real")
        self.left.symlink_to("real")
        os.chown(self.left, 12345, -1, follow_symlinks=False)
        self.says("left.liq: it is a link of user 12345")
        self.left.rename(self.folder / "next")
        self.left.symlink_to("next")
        self.says("left.liq: it is a link of user 12345")

    def test_holes_are_not_read(self) -> None:
        begun = time.monotonic()
        os.truncate(self.left, 2**42)
        self.assertEqual(self.said(), ([], []))
        header = b"\1LIQJRNL2" + b"".join(word.to_bytes(8, "big") for word in (1001, 2**36, 10**19)) + bytes(32)
        self.left.write_bytes(header)
        os.truncate(self.left, 2**42)
        self.says("left.liq: it is damaged at 0: a hole is in its checkpoint")
        self.assertLess(time.monotonic() - begun, 30)


class Words(Looking):
    def test_words_that_are_not_understood(self) -> None:
        for words in ([], ["--answered"], ["--dry-run"], ["--other"], ["another folder"], ["--note"]):
            with self.subTest(words), mock.patch("sys.stderr", io.StringIO()) as said:
                with self.assertRaises(SystemExit) as end:
                    guard.main([] if not words else [*words, str(self.folder)] if words != ["--note"] else words)
                self.assertEqual(end.exception.code, 2)
                self.assertIn("usage: python3 -m liq.guard", said.getvalue())

    def test_a_folder_that_is_none(self) -> None:
        (self.folder / "file").write_text("")
        for name in ("none", "file"):
            with contextlib.redirect_stdout(io.StringIO()):
                self.assertEqual(guard.main([str(self.folder / name)]), 1)


class OfProgram(OverProgram, Looking):
    """The guard beside the program."""

    def setUp(self) -> None:
        super().setUp()
        self.top, self.folder = self.folder, self.folder / "market"
        self.folder.mkdir()

    def test_the_program_tells_no_more_than_the_guard(self) -> None:
        """A byte that is turned: where the program says nothing of it, and has another market, the guard says so."""
        lines = [*FUNDS[:3], "2 1 rotate", "2 2 fund 1 1", "2 3 fund 2 2"]
        with self.service("") as market:
            for line in lines:
                market.ask(line)
        pair = {side: (self.folder / f"{side}.liq").read_bytes() for side in SIDES}
        self.assertEqual(self.said(), ([], []))
        sound = state(self.folder)
        ends = {disk.path.stem: disk.end for disk in Journal(self.folder).chain}
        second = len(pair["right"]) - 1 - 2 * 129
        sample = [("left", place) for place in (0, 5, 12, 20, 40, 65, 70, 194, 200, 323, ends["left"])]
        sample += [("right", place) for place in (0, 5, 12, 40, 65, 100, second, second + 129, second + 140)]
        sample += [("right", ends["right"])]
        for side, place in sample:
            self.put(pair)
            self.turn(side, place, pair[side][place] ^ 1)
            lines_said = guard.look(self.folder).lines
            self.assertTrue(lines_said, (side, place))
            try:
                opened = state(self.folder)
            except Damaged as damaged:
                self.assertIn(f"{side}.liq: it is damaged at {damaged.number}:", lines_said[0].text)
            else:
                is_gate = place in (0, ends[side]) or place >= (65 if side == "left" else second)
                self.assertTrue(is_gate and opened.generation <= sound.generation, (side, place))

    def test_what_rotted_comes_back(self) -> None:
        with self.service("") as market:
            for number in range(1, 255):
                market.ask(f"1 {number} fund 1 {number}")
        left = (self.folder / "left.liq").read_bytes()
        for place in (0, gate_of(4)):
            self.turn("left", place, 0)
            self.assertEqual(self.run_guard()[0], 1)
            status, said = self.run_guard("--mend")
            self.assertEqual(status, 0)
            self.assertIn("liq opens it: journal 1 254\n", said)
            self.assertEqual((self.folder / "left.liq").read_bytes(), left)

    def test_a_market_that_liq_began_over_another_comes_back(self) -> None:
        """The first byte rotted, and liq was opened: it made the same header, with the first record's gate shut."""
        with self.service("") as market:
            for line in FUNDS:
                market.ask(line)
        left = (self.folder / "left.liq").read_bytes()
        self.turn("left", 0, 3)
        with self.service("") as market:
            self.assertEqual(market.next_number(1), 1)
        self.says("left.liq: the gate of record 1, at 65, is 0, and 6 whole records stand behind it.")
        self.assertEqual(self.run_guard("--mend")[0], 0)
        self.assertEqual((self.folder / "left.liq").read_bytes(), left)

    def test_where_liq_went_on_its_records_are_mixed_only_where_the_rules_take_it(self) -> None:
        """A command was written behind a gate that rotted, over the record that stood there."""
        for line, comes_back in (("1 3 fund 1 1", [*FUNDS[:2], "1 3 fund 1 1", *FUNDS[3:]]), ("2 1 fund 1 1", None)):
            with self.service("") as market:
                for fund in FUNDS:
                    market.ask(fund)
            self.turn("left", gate_of(3), 0)
            with self.service("") as market:
                market.ask(line)
            before = (self.folder / "left.liq").read_bytes()
            self.assertEqual(self.run_guard()[0], 1)
            status, said = self.run_guard("--mend")
            if comes_back:
                self.assertEqual((status, Journal(self.folder).lines), (0, comes_back))
            else:
                self.assertEqual(status, 1)
                self.assertIn("over it liq ended with 6, damaged left 4, and nothing was written", said)
                self.assertEqual((self.folder / "left.liq").read_bytes(), before)
            for side in SIDES:
                (self.folder / f"{side}.liq").unlink()

    def test_an_older_file_that_is_damaged_may_be_moved_away(self) -> None:
        with self.service("") as market:
            for line in [*FUNDS, "2 1 rotate", "2 2 fund 1 1"]:
                market.ask(line)
        sound = state(self.folder)
        self.turn("left", gate_of(1) + 20, 99)
        self.assertIn("may be moved away", self.said()[0][0])
        self.assertRaises(Damaged, state, self.folder)
        (self.folder / "left.liq").rename(self.top / "older")
        self.assertEqual(state(self.folder), sound)
        empty = "left.liq: it is empty beside generation 2, so generation 1 is on no file. The next rotation takes it"
        self.assertEqual(self.said(), ([], [empty]))

    def test_a_run_that_is_killed_leaves_no_finding(self) -> None:
        chance = random.Random(3)
        number = 0
        for _ in range(25):
            calls = ((at, "fund 1 1" if at % 7 else "rotate") for at in range(number + 1, number + 4000))
            (self.folder / "lines").write_text("".join(f"1 {at} {call}\n" for at, call in calls))
            with (self.folder / "lines").open() as lines, (self.folder / "replies").open("wb") as replies:
                run = subprocess.Popen([PROGRAM, "run"], cwd=self.folder, stdin=lines, stdout=replies)
                time.sleep(chance.uniform(0.01, 0.05))
                looked = guard.look(self.folder)  # beside the run
                run.kill()
                run.wait()
            if looked.current:
                self.assertEqual(looked.found, [])
            self.assertEqual([line for line in self.said()[0] if "no journal" not in line], [])
            with self.service("") as market:
                number = market.next_number(1) - 1
        self.assertGreater(number, 0)
