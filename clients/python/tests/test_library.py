"""The library: where it is looked for, what doesn't fit, and its header beside the package's tables."""
import contextlib
import io
import os
import re
import shutil
import subprocess
import unittest
from typing import Dict, List
from unittest import mock

from liq import ANY_FEE, Market, NotBuilt, library
from liq.client import ACCOUNTS
from liq.journal import KINDS, NO_HINT, RECORDS_MOST, VERBS
from liq.model.disks import command_bytes
from liq.model.told import generated
from liq.refusals import BY_CODE, OF_OTHER_WORDS

from .market import LIBRARY, TOP, InFolder

HEADER = (TOP / "clients/c/liq.h").read_text()
COMPILER = os.environ.get("CC") or next(filter(shutil.which, ("cc", "gcc", "clang")), None)


class Missing(InFolder):
    """Where there is no library, or none that fits."""

    def setUp(self) -> None:
        super().setUp()
        library.loaded.cache_clear()
        self.addCleanup(library.loaded.cache_clear)

    def refused(self, **named: str) -> str:
        with mock.patch.dict(os.environ, named), self.assertRaises(NotBuilt) as refused:
            Market()
        self.assertEqual(refused.exception.status, 70)
        return str(refused.exception)

    def test_none_is_built(self) -> None:
        with mock.patch.object(library, "PLACES", ()), mock.patch.dict(os.environ):
            os.environ.pop("LIQ_LIBRARY", None)
            told = self.refused()
        self.assertEqual(told,
            f"there is no libliq.so: build it by `{TOP}/scripts/build --library`; Market(engine=\"model\") and a Service need none")

    def test_outside_a_checkout(self) -> None:
        with mock.patch.object(library, "TOP", self.folder):
            told = str(library.missing("there is no libliq.so", f"{self.folder}/scripts/build --library"))
        self.assertEqual(told,
            "there is no libliq.so: in a checkout of liq `scripts/build --library` builds one; Market(engine=\"model\") and a Service need none")

    def test_the_one_that_is_named(self) -> None:
        self.assertIn(f"there is no library at {self.folder}/x.so", self.refused(LIQ_LIBRARY=f"{self.folder}/x.so"))
        self.assertRaises(NotBuilt, Market, self.folder / "y.so")
        (self.folder / "text.so").write_text("no library")
        self.assertIn("text.so can't be loaded", self.refused(LIQ_LIBRARY=f"{self.folder}/text.so"))

    def test_the_tried_one_where_it_is_asked_for(self) -> None:
        tried, built = self.folder / "libliq-tried.so", self.folder / "libliq.so.1"
        tried.touch()
        said = f"liq: UNPROVED library {tried} (tests at run time stay in); LIQ_TRY is set\n"
        with mock.patch.multiple(library, TRIED=tried, PLACES=(built,)), mock.patch.dict(os.environ, LIQ_TRY="1"):
            os.environ.pop("LIQ_LIBRARY", None)
            with contextlib.redirect_stderr(io.StringIO()) as told:
                self.assertEqual((library.find_library(), told.getvalue()), (tried, said))
            with mock.patch.dict(os.environ, LIQ_TRY=""):
                self.assertRaises(NotBuilt, library.find_library)
            built.touch()
            with contextlib.redirect_stderr(io.StringIO()) as told:
                self.assertEqual((library.find_library(), told.getvalue()), (built, ""))

    def test_another_machine(self) -> None:
        (self.folder / "some.so").write_bytes(b"")
        named = {"LIQ_LIBRARY": f"{self.folder}/some.so"}
        with mock.patch("platform.machine", return_value="aarch64"):
            self.assertIn("is for Linux on x86-64, and this is linux on aarch64", self.refused(**named))
        with mock.patch.object(library, "processor_flags", return_value=["sse4_1", "fpu"]):
            self.assertIn("this processor lacks cx16, lahf_lm, pni, popcnt, sse4_2, ssse3", self.refused(**named))
        self.assertLessEqual({"fpu"}, set(library.processor_flags()) | {"fpu"})

    @unittest.skipUnless(COMPILER, "there is no C compiler")
    def test_another_interface(self) -> None:
        calls = [f"void liq_{name}(void) {{}}" for name in library.CALLS if name != "abi"]
        for text, told in (
            ("unsigned liq_abi(void) { return 2; }\n" + "\n".join(calls), "has interface 2, and this package is for 1"),
            ("unsigned liq_abi(void) { return 1; }", "can't be loaded"),
        ):
            path = self.folder / f"{len(text)}.so"
            (self.folder / "a.c").write_text(text)
            subprocess.run([COMPILER, "-shared", "-fPIC", "-o", path, self.folder / "a.c"], check=True)
            self.assertIn(told, self.refused(LIQ_LIBRARY=str(path)))


class Header(InFolder):
    """clients/c/liq.h."""

    def numbers(self, name: str) -> Dict[str, int]:
        """The names of an enumeration, without LIQ_ in front, and their numbers."""
        (body,) = re.findall(r"typedef enum \{([^}]*)\} " + name + ";", HEADER)
        return {key.lower(): int(number) for key, number in re.findall(r"LIQ_(\w+) = (\d+)", body)}

    def defined(self, name: str) -> int:
        (number,) = re.findall(rf"#define {name} (\d+)u", HEADER)
        return int(number)

    def test_verbs_topics_and_codes(self) -> None:
        self.assertEqual(self.numbers("liq_verb"), {verb: kind for kind, verb in enumerate(KINDS, 1)})
        self.assertEqual(self.numbers("liq_topic"), {topic: at for at, topic in enumerate(library.TOPICS, 1)})
        codes = {name.replace("_", ""): code for name, code in self.numbers("liq_refusal").items()}
        self.assertEqual(codes,
            {each.__name__.lower(): code for code, each in BY_CODE.items() if each not in OF_OTHER_WORDS})

    def test_statuses_kinds_and_lists(self) -> None:
        names = {"ok": 0, "no_market": 1, "no_memory": 2, "bad": 3, "short": 4}
        self.assertEqual(self.numbers("liq_status"), names)
        self.assertEqual({name: getattr(library, name.upper()) for name in names}, names)
        for name in ("liq_kind", "liq_list"):
            numbers = self.numbers(name)
            self.assertEqual({key: getattr(library, key.upper()) for key in numbers}, numbers)

    def test_other_constants(self) -> None:
        for name, number in (
            ("LIQ_ABI", library.ABI), ("LIQ_LINE_MOST", library.LINE_MOST), ("LIQ_ACCOUNTS", ACCOUNTS),
            ("LIQ_RECORDS_MOST", RECORDS_MOST),
            ("LIQ_NO_HINT", NO_HINT), ("LIQ_ANY_FEE", ANY_FEE),
        ):
            self.assertEqual(self.defined(name), number)
        code = (TOP / "crates/liq_types/src/amounts.rt").read_text()
        self.assertIn(f"REPLY_BYTES: usize = {library.LINE_MOST - 1};", code)

    def test_its_calls_are_those_of_the_package(self) -> None:
        declared = set(re.findall(r"^(?:uint32_t|void|liq_done|liq_text_done|size_t) liq_(\w+)\(", HEADER,
            re.MULTILINE))
        self.assertEqual(declared, set(library.CALLS))

    @unittest.skipIf(LIBRARY is None or not shutil.which("nm"), "there is no libliq.so, or no nm")
    def test_the_library_shows_them_and_nothing_else(self) -> None:
        told = subprocess.run(["nm", "-D", "--defined-only", str(LIBRARY)], capture_output=True, text=True,
            check=True).stdout
        shown = {line.split()[2].partition("@")[0] for line in told.splitlines() if line.split()[1] != "A"}
        self.assertEqual(shown, {f"liq_{name}" for name in library.CALLS})

    @unittest.skipUnless(COMPILER, "there is no C compiler")
    def test_what_its_functions_write(self) -> None:
        """Each verb's function gives the bytes that the journal's format has."""
        words = {"open": "open_trove", "close": "close_trove"}
        commands = [it._replace(number=at, client=at % 7) for at, it in enumerate(generated(5, 400))]
        commands.append(commands[0]._replace(verb="rotate", accounts=(), amounts=()))
        self.assertEqual({it.verb for it in commands} | {"take"}, set(VERBS))
        commands.append(commands[0]._replace(verb="take"))
        lines: List[str] = []
        for it in commands:
            given = ", ".join(f"{word}u" for word in (it.client, it.number, *it.accounts, *it.amounts))
            lines.append(f"    put(liq_{words.get(it.verb, it.verb)}({given}));")
        wanted = []
        for it in commands:
            count = VERBS[it.verb].count("h")
            wanted.append(command_bytes(it._replace(hints=(None, None)[:count])).hex())
        self.assertEqual(self.run_c("""static void put(liq_command c) {
    for (int i = 0; i < 96; i++) printf("%02x", c.bytes[i]);
    putchar('\\n');
}
int main(void) {
""" + "\n".join(lines) + "\n}\n"), wanted)

    @unittest.skipUnless(COMPILER, "there is no C compiler")
    def test_what_its_functions_read(self) -> None:
        text = """int main(void) {
    liq_reply told = {LIQ_TOLD, LIQ_WALLET, 2, {0}, {5, 6}};
    liq_reply refused = {LIQ_REFUSED, LIQ_RATIO_LOW, 2, {0}, {5, 6, 7, 8}};
    for (unsigned i = 0; i < 2; i++) printf("%d %d %d %d\\n", (int)liq_low(&told, i), (int)liq_high(&told, i),
                                            (int)liq_low(&refused, i), (int)liq_high(&refused, i));
    liq_command c = liq_fund(1, 77, 2, 3);
    printf("%d %d\\n", (int)liq_number_of(&c), (int)sizeof(liq_market));
}
"""
        self.assertEqual(self.run_c(text), ["5 0 5 6", "6 0 7 8", "77 32"])

    def run_c(self, text: str) -> List[str]:
        """What a program over the header prints, as strict compilers take it."""
        source, program = self.folder / "a.c", self.folder / "a"
        source.write_text('#include <stdio.h>\n#include "liq.h"\n' + text)
        flags = ["-std=c11", "-Wall", "-Wextra", "-Werror", "-O1", "-ffunction-sections", "-Wl,--gc-sections"]
        subprocess.run([str(COMPILER), *flags, "-I", TOP / "clients/c", "-o", program, source], check=True)
        return subprocess.run([program], capture_output=True, text=True, check=True).stdout.splitlines()
