"""Commands and queries over the built program."""
from liq import Journal, refusals
from liq.journal import VERBS

from . import calls
from .market import TOP, OverProgram


class EveryVerb(OverProgram, calls.EveryVerb):
    """Each verb."""

    def begin(self):
        return self.service()

    def test_each_verb_is_accepted_and_names_its_values(self) -> None:
        super().test_each_verb_is_accepted_and_names_its_values()
        self.market.close()
        verbs = {command.verb for disk in Journal(self.folder / "market").chain for command in disk.commands}
        self.assertEqual(verbs | {"rotate"}, set(VERBS))


class Refused(OverProgram, calls.Refused):
    """Refusals."""

    def begin(self):
        """A new market, in a folder of its own each time: a run holds its files."""
        self.begun += 1
        return self.service(f"market {self.begun}")

    begun = 0

    def test_a_number_that_another_has_used(self) -> None:
        service = self.service()
        here, there = service.client(1), service.client(1)
        here.fund(1, 1)
        here.fund(1, 1)
        with self.assertRaises(refusals.OutOfTurn) as refused:
            there.fund(1, 1)
        self.assertEqual(refused.exception.expected, 3)


class ByExample(OverProgram):
    def test_reply_for_reply_and_the_journal_read_back(self) -> None:
        lines = (TOP / "crates/liq_main/stdin").read_text().splitlines()
        wanted = (TOP / "crates/liq_main/stdout").read_text().splitlines()
        replies = self.lines("first", lines)
        self.assertEqual(replies, wanted)
        accepted, last = [], {}
        for line, reply in zip(lines, replies):
            client, _, rest = line.partition(" ")
            if reply.startswith("ok") and last.get(client) != rest.split(" ")[0]:
                accepted.append(line)
                last[client] = rest.split(" ")[0]
        self.assertEqual(Journal(self.folder / "first").lines, accepted)
        self.lines("again", accepted)
        files = [(self.folder / name / "left.liq").read_bytes() for name in ("first", "again")]
        self.assertEqual(*files)
