"""The form of templates, and the templates that there are."""
import base64
import hashlib
import re
import unittest
from importlib.resources import files
from pathlib import Path
from typing import Any, Dict, NamedTuple

from liq import statement
from liq.template import Markup, TemplateFault, Templates, head_of, of_package


class Row(NamedTuple):
    name: str
    size: int


def filled(text: str, forms: Any = None, **values: Any) -> str:
    """A template of this text; `other.html` is `<b>{{ name }}</b>`."""
    read: Dict[str, str] = {"this.html": text, "other.html": "<b>{{ name }}</b>"}
    return Templates(forms or {}, read.__getitem__).fill("this.html", values)


class Form(unittest.TestCase):
    def test_values_are_escaped(self) -> None:
        self.assertEqual(filled('{{ a }} "{{b}}"', a="<a href='x'>&", b=5), '&lt;a href=&#x27;x&#x27;&gt;&amp; "5"')
        self.assertEqual(filled("{{ a }}", a='"{{ b }}{% end %}'), "&quot;{{ b }}{% end %}")

    def test_markup_is_put_in_as_it_is(self) -> None:
        self.assertEqual(filled("{{ a }}", a=Markup("<b>")), "<b>")
        self.assertIsInstance(filled("x"), Markup)

    def test_parts_of_values(self) -> None:
        row = Row("x", 5)
        self.assertEqual(filled("{{ a.name }}{{ b.c.size }}", a=row, b={"c": row}), "x5")

    def test_forms(self) -> None:
        forms = {"twice": lambda value: f"{value}<{value}", "bold": lambda value: Markup(f"<b>{value}</b>")}
        self.assertEqual(filled("{{ a | twice }} {{ a | bold }}", forms, a=5), "5&lt;5 <b>5</b>")

    def test_each(self) -> None:
        rows = [Row("x", 1), Row("y", 0)]
        line = "  <li>{{ row.name }}{% if row.size %}!{% else %}?{% end %}</li>\n"
        text = "<ul>\n{% for row in rows %}\n" + line + "{% end %}\n</ul>\n"
        self.assertEqual(filled(text, rows=rows), "<ul>\n  <li>x!</li>\n  <li>y?</li>\n</ul>\n")
        self.assertEqual(filled(text, rows=[]), "<ul>\n</ul>\n")

    def test_what_is_there(self) -> None:
        text = "{% if there a %}{{ a }}{% else %}none{% end %}{% if a %}!{% end %}"
        self.assertEqual([filled(text, a=a) for a in (0, 5, None)], ["0", "5!", "none"])

    def test_other_templates_have_the_same_values(self) -> None:
        text = "{% for name in names %}{% put other.html %}{% end %}"
        self.assertEqual(filled(text, names=["<", "y"]), "<b>&lt;</b><b>y</b>")

    def test_what_is_not_in_the_form(self) -> None:
        for text, where, why in (
            ("{{ a }}\n{{ b }}", "this.html, line 2", "there is no b"),
            ("{{ a.b }}", "this.html, line 1", "there is no a.b"),
            ("{{ a._x }}", "this.html, line 1", "there is no a._x"),
            ("{{ none }}", "this.html, line 1", "none is None"),
            ("{{ a | x }}", "this.html, line 1", "there is no form 'x'"),
            ("{{ a b }}", "this.html, line 1", "'a b' is no value"),
            ("x\n{% if a %}", "this.html, line 2", "it has no end"),
            ("{% end %}", "this.html, line 1", "'end' is not in the form, or not in its place"),
            (
                "{% for a in a %}{% else %}{% end %}", "this.html, line 1",
                "'else' is not in the form, or not in its place",
            ),
            ("{% while a %}", "this.html, line 1", "'while a' is not in the form, or not in its place"),
            ("{{ a }", "this.html", "not in the form: {{ a }"),
        ):
            with self.assertRaises(TemplateFault) as caught:
                filled(text, a="x", none=None)
            self.assertEqual(str(caught.exception), f"{where}: {why}")
        self.assertRaises(KeyError, filled, "{% put absent.html %}")


class Files(unittest.TestCase):
    """The templates of the package."""

    def setUp(self) -> None:
        self.texts = {
            path.name: path.read_text("utf-8") for path in (files("liq") / "templates").iterdir() if path.is_file()}

    def test_which_there_are(self) -> None:
        self.assertEqual(
            sorted(self.texts), ["begin.html", "contents.html", "market.html", "statement.html", "style.css"])

    def test_a_value_in_an_attribute_stands_between_double_quotes(self) -> None:
        for name, text in self.texts.items():
            self.assertNotRegex(text, r"=\s*\{\{|='[^']*\{\{", name)

    def test_nothing_is_from_elsewhere(self) -> None:
        for name, text in self.texts.items():
            self.assertNotRegex(text, r"<script|<link|<img|\bsrc=|https?:|@import|url\(|\bon[a-z]+=| style=", name)
        self.assertNotIn("<", self.texts["style.css"])

    def test_the_digest_of_the_modules_is_theirs_too(self) -> None:
        package, found = Path(statement.__file__).parent, hashlib.sha256()
        paths = [path for path in package.rglob("*.*") if path.parent.name in ("liq", "model", "templates")]
        for path in sorted(path for path in paths if path.suffix in (".py", ".html", ".css")):
            found.update(f"{path.relative_to(package)} {path.stat().st_size}\n".encode() + path.read_bytes())
        self.assertEqual(statement.digest_of_modules(), found.hexdigest())

    def test_the_policy_has_the_digest_of_the_style_sheet(self) -> None:
        head = head_of("A title")
        style = re.findall("<style>(.*)</style>", Templates({}).fill("begin.html", head), re.S)[0]
        self.assertEqual(style, of_package("style.css"))
        digest = base64.b64encode(hashlib.sha256(style.encode()).digest()).decode()
        self.assertEqual(
            head["policy"], f"default-src 'none'; style-src 'sha256-{digest}'; base-uri 'none'; form-action 'none'")
