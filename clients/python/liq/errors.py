"""The class of all that this package raises, and the exceptions for arguments, turns and time.

`LiqError` stands over each: a refusal (`refusals`), an end of the program (`ends.End`), files that are not taken
(`ends.Unfit`), and those here, which are Python's own classes too: who catches `ValueError` or `TimeoutError` catches
them. What the system says when a file of your own can't be opened stays an OSError.
"""
from typing import Optional


class LiqError(Exception):
    """What this package raises: each of its exceptions is one of these."""


class BadValue(LiqError, ValueError):
    """An argument is out of range, or has no such form. Nothing was sent, and nothing is changed."""


class BadType(LiqError, TypeError):
    """An argument is of a type that is not taken, as a float for an amount. Nothing was sent or changed."""


class NoPackage(LiqError, ImportError):
    """A package that is not part of Python is wanted for this, and is not there, as numpy for columns."""


class OutOfMemory(LiqError, MemoryError):
    """There was no memory for it. Nothing changed."""


class NotReady(LiqError, RuntimeError):
    """The call can't be made now: no run goes on, or a command that was sent has no reply yet."""


class TimedOut(LiqError, TimeoutError):
    """No reply came in time. Whether the line was carried out is not known yet, and its number is kept.

    `pending` is the line that has no reply, None where none was sent; `seconds` is the time that the call had. The
    same line again, as by `Client.resend`, waits on for its reply, and counts once."""

    def __init__(self, seconds: float, pending: Optional[str] = None, what: str = "no reply") -> None:
        # Not that of OSError, above TimeoutError, which would take two arguments for an error's number and its text.
        Exception.__init__(self, seconds, pending, what)
        self.seconds, self.pending, self.what = seconds, pending, what

    def __str__(self) -> str:
        told = f"{self.what} in {self.seconds:g} seconds"
        return told + (f"; without a reply: {self.pending}" if self.pending else "")
