"""The feed: a market's clock and its price, through a gateway."""
import contextlib
import io
import json
import os
import signal
import sys
import time
from pathlib import Path
from typing import Tuple

from liq import Journal, feed

from .gateways import ME, Gateways
from .market import status_of

TABLE = f"""
[gateway]
client = 1

[feed]
user = {ME}
client = 2
verbs = price advance system
"""


class Feed(Gateways):
    def setUp(self) -> None:
        super().setUp()
        self.write_table(TABLE)
        self.gateway = self.start()
        self.price = self.folder / "price"
        self.begin = int(time.time()) - 3 * 60 - 5

    def fed(self, *words: object, begin: Tuple[object, ...] = ()) -> Tuple[int, str]:
        """The status of a call, and what it tells."""
        with contextlib.redirect_stdout(io.StringIO()) as told:
            status = status_of(feed.main, *(begin or ("--begin", self.begin)), *words, self.socket)
        return status, told.getvalue()

    def calls(self) -> int:
        return len(Journal(self.market).current.commands)

    def test_a_minute_counts_once(self) -> None:
        self.assertEqual(self.fed("--look"), (1, "minute 0, 3 behind, price 1000\n"))
        self.assertEqual(self.fed(), (0, "minute 3, 3 further\n"))
        self.assertEqual(self.fed(), (0, "minute 3, 0 further\n"))
        self.assertEqual(self.calls(), 1)
        self.begin -= 120  # two calls were missed
        self.assertEqual(json.loads(self.fed("--json")[1]), {"minute": 5, "advanced": 2})
        self.assertEqual(self.fed("--look"), (0, "minute 5, 0 behind, price 1000\n"))

    def test_the_market_is_further(self) -> None:
        self.fed()
        self.begin += 120
        status, told = self.fed()
        self.assertEqual((status, told[:72]), (1, "feed refuses: the market's minute is 3, and by the clock of this machine"))

    def test_a_file_for_the_begin(self) -> None:
        path = self.folder / "begin"
        self.assertEqual(self.fed(begin=("--begin-file", path)), (0, "minute 0, 0 further\n"))
        self.assertAlmostEqual(int(path.read_text()), time.time(), delta=60)
        path.write_text(f"{self.begin}\n")
        self.assertEqual(self.fed(begin=("--begin-file", path)), (0, "minute 3, 3 further\n"))
        self.assertEqual([each.name for each in self.folder.glob("begin*")], ["begin"])
        path.write_text("soon\n")
        self.assertIn("is a whole number up to", self.fed(begin=("--begin-file", path))[1])

    def test_a_price(self) -> None:
        self.price.write_text("1100.5\n")
        words = ("--price-file", self.price)
        self.assertEqual(self.fed(*words), (0, "minute 3, 3 further\nprice 1100.5\n"))
        self.assertEqual(self.fed(*words), (0, "minute 3, 0 further\nprice 1100.5, as before\n"))
        self.assertEqual(self.calls(), 2)
        self.price.write_text("1101")
        self.assertIn("another price was set in minute 3", self.fed(*words)[1])
        self.begin -= 60
        self.assertEqual(self.fed(*words), (0, "minute 4, 1 further\nprice 1101\n"))

    def test_a_jump(self) -> None:
        self.price.write_text("1201")
        words = ("--price-file", self.price)
        self.assertEqual(self.fed(*words), (1, (
            "feed refuses: the price jumps from 1000 to 1201, by more than 20 parts in a hundred: look, and then"
            " --accept-jump\nminute 3, 3 further\n")))
        self.assertEqual(self.fed(*words, "--jump", 21), (0, "minute 3, 0 further\nprice 1201\n"))
        self.begin -= 60
        self.price.write_text("400")
        self.assertEqual(self.fed(*words, "--accept-jump"), (0, "minute 4, 1 further\nprice 400\n"))

    def test_an_age(self) -> None:
        words = ("--price-file", self.price)
        for text, changed, why in (
            ("1001", -10, "the price is 10 minutes old, and may be 5"),
            (f"1001 {int(time.time()) - 610}", 0, "the price is 10 minutes old"),
            (f"1001 {int(time.time()) + 610}", 0, "the price is of a time to come"),
            ("", 0, "has not one number"), ("1 2 3", 0, "has not one number"), ("9" * 101, 0, "has not one number"),
            ("1e3", 0, "'1e3' is no decimal number"), ("1001 now", 0, "is a whole number"),
        ):
            self.price.write_text(text)
            os.utime(self.price, (time.time(), time.time() + changed * 60 - 5))
            status, told = self.fed(*words)
            self.assertEqual((status, why in told), (1, True), told)
        self.price.write_text(f"1001 {int(time.time()) - 610}")
        self.assertEqual(self.fed(*words, "--price-age", 11)[0], 0)
        self.price.unlink()
        self.assertIn("No such file", self.fed(*words)[1])

    def test_a_command(self) -> None:
        script = self.folder / "ask"
        word = f"{sys.executable} {script}"
        for text, wanted in (
            ("print(1050)", (0, "price 1050\n")), ("raise SystemExit(3)", (1, "ended with 3")),
            ("pass", (1, "has not one number")),
        ):
            script.write_text(text)
            status, told = self.fed("--price-command", word)
            self.assertEqual((status, wanted[1] in told), (wanted[0], True), told)
        self.assertIn("No such file", self.fed("--price-command", "/none/x")[1])
        self.assertIn("is no command", self.fed("--price-command", "'")[1])

    def test_a_price_that_the_market_refuses(self) -> None:
        self.price.write_text("1")
        self.assertIn("the price 1 is not taken: no ", self.fed("--price-file", self.price, "--accept-jump")[1])

    def test_a_caller_who_may_not(self) -> None:
        self.write_table(TABLE.replace(" system", ""))
        self.gateway.send_signal(signal.SIGHUP)
        while "table taken" not in self.log.read_text():
            time.sleep(0.02)
        self.assertEqual(self.fed(), (1, (
            "feed refuses: the gateway does not tell the market's minute: refused verb system is none of your verbs\n")))
        status, told = self.fed("--name", "nobody")
        self.assertEqual((status, "the gateway does not tell the market's minute: refused caller" in told), (1, True), told)

    def test_no_gateway(self) -> None:
        self.socket = Path(self.folder / "none")
        self.assertEqual(self.fed(), (1, "feed refuses: [Errno 2] No such file or directory\n"))
