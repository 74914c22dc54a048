"""What is wrong with a line: each wrong line has a reason of its own, and what is no request alone has one."""
import random
import re
import subprocess
import sys

from liq import BadLine, BatchStopped
from liq.gateway.lines import Refused, read_line
from liq.grammar import NAMES, QUERIES, NoRequest, read_request
from liq.journal import VERBS
from liq.why import SHOWN_MOST, why, why_asked, why_call

from .market import TOP, InFolder

REASONS = {  # of each a part
    "": "it is empty",
    "\r": "a carriage return alone",
    "# a comment": "a comment",
    "1 1 fund 1 5\r": "tr -d '\\r'",
    "\ufeff1 1 fund 1 5": "a byte order mark",
    "\xef\xbb\xbf1 1 fund 1 5": "a byte order mark",
    "$ 1 1 fund 1 5": "a prompt",
    "\"1 1 fund 1 5\"": "quotes",
    "1 1 fund 1 5;": "a semicolon",
    "1 1 fund 1 " + "5" * 200: "more than 200 bytes",
    "1\t1 fund 1 5": "a tab",
    " 1 1 fund 1 5": "a space stands at its begin",
    "1 1 fund 1 5 ": "a space stands at its end",
    "1  1 fund 1 5": "two spaces",
    "1 1 f\xfcnd 1 5": "'\\xfc' stands in it",
    "?": "a query has a name: wallet",
    "?wallet 1": ": ? wallet 1",
    "? walet 1": "'walet' is no query: wallet?",
    "? xyz 1": "'xyz' is no query, which are: wallet, trove",
    "? wallet": "ACCOUNT is missing",
    "? wallet 1 2": "'2' is too much",
    "? pools 1": "takes no word, and has 1",
    "? fund 1": "fund is a verb",
    "? wallet x": "ACCOUNT is 'x'",
    "? next_number 4294967296": "CLIENT '4294967296' is too large",
    "wallet 1": ": ? wallet 1",
    "fund 1 5": "CLIENT and NUMBER stand in front of the verb: CLIENT NUMBER fund ACCOUNT COLL",
    "1 fund 1 5": "CLIENT or NUMBER is missing",
    "hello world": "'hello' stands where a number does",
    "1 1": "a verb is missing",
    "1": "a verb is missing",
    "x1 1 fund 1 5": "CLIENT is 'x1'",
    "1 01 fund 1 5": "NUMBER '01' has a zero in front: 1",
    "1 1 1 5": "a verb belongs where '1' stands",
    "1 1 Fund 1 5": "'Fund' is no verb: fund?",
    "1 1 liquidate-lowest 1 5": "liquidate_lowest?",
    "1 1 liquidate lowest 1 5": "the verb is one word: liquidate_lowest",
    "1 1 wallet 1": "wallet is a query",
    "1 1 fund 1": "COLL is missing",
    "1 1 open 1 5 5 5": "HINT HINT are missing; - says no hint",
    "1 1 fund 1 5 6": "'6' is too much",
    "1 1 rotate 5": "takes no word",
    "1 1 fund 1 -5": "a number has no sign",
    "1 1 fund 1 +5": "a number has no sign",
    "1 1 take 1 -": "a hyphen stands for a hint alone",
    "1 1 fund 1 10.5": "10.5 is 10500000000 gwei",
    "1 1 fund 1 10ether": "10 ether is 10000000000 gwei",
    "1 1 fund 1 1,000": ": 1000",
    "1 1 fund 1 1.2345678901": "at most 9 places behind the point",
    "1 1 fund 1 1e9": "digits alone",
    "1 1 price 460.5": "460.5 is 460500000 millionths of a LUSD",
    "1 1 provide 1 4000lusd": "4000 lusd is 4000000000 millionths",
    "1 1 redeem 1 5 0.5% - -": "0.5% is 5000000000000000 parts of 10^18",
    "1 1 redeem 1 5 any - -": "any fee is 1000000000000000000",
    "1 1 redeem 1 5 5 first -": "a hint is an account, or -",
    "1 1 price 18446744073709551616": "too large: it is at most 18446744073709551615",
}
OTHERS = {
    ("serve", "1 1 1 fund 1 5"): "", ("serve", "9 1 1 fund 1 5"): "a session from 1 to 8", ("serve", "1"): "a request",
    ("serve", "1 1 1 fund 1 x"): "COLL is 'x'",
    ("staking", "0 1 stake 5"): "", ("staking", "0 1 put 5"): "stake or unstake", ("staking", "0 1 stake"): "has 4 words",
    ("staking", "0 1 stake 05"): "AMOUNT '05' has a zero in front",
    ("rewards", "tag 2 9 250000000000000000"): "", ("rewards", "tag 2 9 0.25"): "RATE is '0.25'",
}


class Reasons(InFolder):
    """Lines, their reasons, and the command."""

    def test_each_has_its_own(self) -> None:
        for line, part in REASONS.items():
            self.assertIn(part, why(line), line)
        self.assertGreater(len({why(line) for line in REASONS}), len(REASONS) - 4)

    def test_of_the_other_words(self) -> None:
        for (word, line), part in OTHERS.items():
            said = why_asked(word, line)
            self.assertTrue(part in said if part else said == "", (word, line, said))

    def test_what_is_a_request_has_none(self) -> None:
        words = {"a": "7", "v": "0", "h": "-"}
        for verb, shape in VERBS.items():
            call = " ".join([verb, *(words[letter] for letter in shape)])
            self.assertEqual((why(f"1 1 {call}"), why_call(call)), ("", ""))
            self.assertEqual(len(NAMES[verb].split()), len(shape))
        for query, count in QUERIES.items():
            self.assertEqual(why(" ".join(["?", query, *["1"] * count])), "")
            self.assertEqual(len(NAMES[query].split()), count)

    def test_any_bytes_have_a_reason_or_are_a_request(self) -> None:
        chance = random.Random(90)
        signs = "?  -+.,0019abcdefulndwt_%\r\t#\"'\x00\xff"
        for _ in range(20_000):
            line = "".join(chance.choice(signs) for _ in range(chance.randint(0, 12)))
            line = chance.choice((line, f"1 1 {line}", f"? {line}", f"1 1 fund 1 {line}", f"1 1 open {line}"))
            try:
                read_request(line)
                self.assertEqual(why(line), "")
            except NoRequest:
                said = why(line)
                self.assertTrue(said, repr(line))
                self.assertIsNone(re.search("[^ -~]", said), repr(line))
                self.assertLess(len(said), 250 + 2 * SHOWN_MOST)

    def test_the_gateway_says_it(self) -> None:
        for line, part in {
            b"k-1 fund 1 0001": "COLL '0001' has a zero in front: 1", b"? walet 1": "wallet?", b"k-1": "KEY VERB WORDS",
            b"- fund 1 10ether": "10 ether is 10000000000 gwei", b"k fund 1 \xff": "'\\xff' stands in it",
        }.items():
            with self.assertRaises(Refused) as refused:
                read_line(line)
            self.assertEqual(refused.exception.name, "bad_line")
            self.assertIn(part, str(refused.exception))

    def test_the_exceptions_say_it(self) -> None:
        self.assertIn("(COLL is '5.0'", str(BadLine(2, "bad line 1", "1 1 fund 1 5.0")))
        self.assertEqual(str(BadLine(2, "bad line 1")), "liq ended with 2, bad line 1")
        self.assertIn("is no request: 'walet' is no query", str(BatchStopped(3, "? walet 1")))

    def test_the_command(self) -> None:
        lines = self.folder / "lines"
        lines.write_bytes(b"1 1 fund 1 5\n1 2 fund 1 05\r\nx")
        for words, told in {
            ("--line", "1", str(lines)): (0, ""), ("--line", "2", str(lines)): (1, "a carriage return"),
            ("--line", "3", str(lines)): (1, "'x' stands"), ("1 1 fund 1 05",): (1, "a zero in front"),
            ("--line", "4", str(lines)): (2, ""), ("--line", "1", str(self.folder / "none")): (2, ""),
        }.items():
            ran = subprocess.run(
                [sys.executable, "-m", "liq.why", *words], capture_output=True, text=True, cwd=TOP / "clients/python")
            self.assertEqual(ran.returncode, told[0], words)
            self.assertIn(told[1], ran.stdout)

    def test_little_is_read_for_it(self) -> None:
        """A caller who is told at once waits for none of the parts that take long."""
        text = "import sys, liq.why; print([name for name in sys.modules if name.startswith('liq.')])"
        ran = subprocess.run([sys.executable, "-c", text], capture_output=True, text=True, cwd=TOP / "clients/python")
        self.assertEqual(ran.stderr, "")
        self.assertNotIn("liq.service", ran.stdout)
        self.assertNotIn("liq.model", ran.stdout)
