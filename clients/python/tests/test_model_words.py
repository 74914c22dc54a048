"""The words of liq by the model, over the gate's own case files."""
from typing import Dict, Iterator, List, Tuple

from liq.journal import SIDES
from liq.model.program import answer
from liq.unproved import NAME

from .casefiles import WHOLE_READ, Sink, Source, Step, cases_of, changed, faults_of_files
from .market import TOP, InFolder

CASES = TOP / "crates/liq_cases/data"
WRONG = "wrong.cases"  # whose cases differ, each in its own way


class CaseFiles(InFolder):
    """Each case of the gate that injects no fault into a disk."""

    def test_all(self) -> None:
        count, faults = 0, []
        for path in sorted(CASES.glob("*.cases")):
            if path.name != WRONG:
                for _, steps in cases_of(path):
                    count += 1
                    faults += list(self.faults_of(steps))
        self.assertEqual(faults, [])
        self.assertGreater(count, 300)

    def faults_of(self, steps: List[Step]) -> Iterator[str]:
        """How a case differs from what is written, up to a run in which a disk fails."""
        files = {side: b"" for side in SIDES}
        for step in steps:
            if step.has_disk_fault and step.words not in (["follow"], ["gen"]):
                return
            before = changed(files, step)
            data = step.input(before)
            cuts = step.numbers("input", "cuts")
            for most in step.numbers("reads") or [WHOLE_READ]:
                for cut in range(cuts[0], cuts[1] + 1) if cuts else [len(data)]:
                    for room in step.numbers("writes") or [2**30]:
                        files, told = self.made(step, before, data[:cut], (most, room))
                        yield from (f"{step.place}: {fault}" for fault in told)

    def made(
        self, step: Step, before: Dict[str, bytes], data: bytes, sizes: Tuple[int, int]
    ) -> Tuple[Dict[str, bytes], List[str]]:
        """Makes a run over such files. Gives what they are then, and what differs."""
        (self.folder / NAME).touch()
        for side in SIDES:
            (self.folder / f"{side}.liq").write_bytes(before[side])
        source = Source(data, sizes[0], step.numbers("source", "fails"))
        sink = Sink(sizes[1], step.numbers("sink", "fails"))
        end = answer(step.words, self.folder, source, sink)  # type: ignore[arg-type]
        after = {side: (self.folder / f"{side}.liq").read_bytes() for side in SIDES}
        faults = list(faults_of_files(step, before, after))
        if end.status != step.status:
            faults.append(f"status: wanted {step.status}, came {end.status}")
        if not step.is_legal and sink.data != step.output([]):
            faults.append(f"output: wanted {step.output([])[-300:]!r}, came {bytes(sink.data[-300:])!r}")
        unread = step.numbers("unread")
        if unread and len(data) == len(step.input(before)) and source.unread != unread[0]:
            faults.append(f"unread: wanted {unread[0]}, came {source.unread}")
        return after, faults
