"""The classes of refusals beside docs/REFUSALS.md, docs/RULES.md and the code that answers them, both ways."""
import re
import unittest

from liq.refusals import BY_CODE, OF_OTHER_WORDS, Refusal, read_refusal

from .market import TOP, document

ENTRY = re.compile(r"^### (\d+) (\w+)\n\n(.*?)(?=^#|\Z)", re.MULTILINE | re.DOTALL)
OF_RULES = {code: each for code, each in BY_CODE.items() if each not in OF_OTHER_WORDS}


def advice_of(entry: str) -> str:
    """What a page's entry says to do, without its links."""
    found = re.search(r"^- Do: (.*?)(?=^- |\Z)", entry, re.MULTILINE | re.DOTALL)
    return re.sub(r"\[(\w+)\]\([^)]*\)", r"\1", " ".join(found[1].split())) if found else ""


class Pages(unittest.TestCase):
    def test_each_entry_of_the_page_is_a_class(self) -> None:
        entries = ENTRY.findall(document("REFUSALS.md"))
        self.assertGreater(len(entries), 30)
        for code, name, text in entries:
            with self.subTest(code=code):
                self.assertEqual(name, BY_CODE[int(code)].__name__)
                if BY_CODE[int(code)] not in OF_OTHER_WORDS:
                    self.assertEqual(advice_of(text), BY_CODE[int(code)].advice)

    def test_each_class_is_an_entry_of_the_page(self) -> None:
        entries = {(int(code), name) for code, name, _ in ENTRY.findall(document("REFUSALS.md"))}
        for code, each in OF_RULES.items():
            self.assertIn((code, each.__name__), entries)

    def test_names_are_those_of_the_rules(self) -> None:
        rules = document("RULES.md")
        named = set(re.findall(r"\b[A-Z]\w+", rules[rules.index("refusals in order") :]))
        ours = {each.__name__ for each in OF_RULES.values()} - {"AccountRange", "OutOfTurn", "JournalFull"}
        self.assertLessEqual(ours, named)

    def test_fields_are_those_of_the_code_in_order(self) -> None:
        code = (TOP / "crates/liq_types/src/replies.rt").read_text()
        body = re.sub(r"///.*", "", code[code.index("pub enum Refusal {") :].partition("\n}")[0])
        variants = re.findall(r"^    (\w+)(?: \{([^}]*)\})?,", body, re.MULTILINE)
        theirs = {name: tuple(re.findall(r"(\w+): \w+", fields)) for name, fields in variants}
        self.assertEqual(theirs, {each.__name__: each.fields for each in OF_RULES.values()})

    def test_codes_are_those_of_the_code(self) -> None:
        written = (TOP / "crates/liq_types/src/codes.rt").read_text()
        arms = re.findall(r"Refusal::(\w+)[^=]*=> \(\s*\[\s*(\d+)", written)
        theirs = {(name, int(code)) for name, code in arms}
        self.assertEqual(theirs, {(each.__name__, code) for code, each in OF_RULES.items()})


class Reading(unittest.TestCase):
    def test_values_have_names(self) -> None:
        refusal = read_refusal("no 41 7 460 464".split())
        self.assertEqual((refusal.account, refusal.left, refusal.right), (7, 460, 464))
        self.assertIn("no 41, account 7, left 460, right 464: `liquidate` that trove first", str(refusal))

    def test_values_that_do_not_fit_are_an_error(self) -> None:
        self.assertRaises(ValueError, read_refusal, "no 41 7 460".split())

    def test_a_code_of_a_later_program_is_a_refusal_still(self) -> None:
        refusal = read_refusal("no 99 1".split())
        self.assertIs(type(refusal), Refusal)
        self.assertEqual((refusal.code, refusal.values), (99, (1,)))
