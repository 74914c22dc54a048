"""A journal of the first generation, followed as its bytes come in."""
import hashlib
from pathlib import Path
from typing import Optional

from ..journal import HEADER_BYTES, LIMITS, RECORD_BYTES, DamagedFile, read_command, read_header
from ..refusals import Refusal
from .disks import big
from .requests import carry_out, is_repeated
from .state import Market
from .streams import Halt

SIDE = Path("left.liq")  # that of a first generation
NAME_1 = b"LIQJRNL1"
OF_NO_NAME = HEADER_BYTES[NAME_1]  # as many bytes of a header are read whose name is none


class Follower:
    """The market to which the bytes lead that have come. Behind a shut gate they mean nothing."""

    def __init__(self) -> None:
        self.market, self.held, self.shut = Market(), b"", False
        self.begin: Optional[int] = None

    def feed(self, piece: bytes) -> None:
        """Takes the next bytes. Raises `Halt` where they show damage, or a later generation."""
        data, at = self.held + piece, 0
        if not self.shut and self.begin is None and data:
            at = self.header(data)
        while not self.shut and self.begin is not None and at < len(data):
            if data[at] != 1:
                self.shut = True
            elif len(data) - at < RECORD_BYTES:
                break
            else:
                self.record(data[at + 1 : at + RECORD_BYTES])
                at += RECORD_BYTES
        self.held = b"" if self.shut else data[at:]

    def header(self, data: bytes) -> int:
        """Reads the header, once it is whole. Says how many bytes are taken."""
        if data[0] != 1:
            self.shut = True
            return 0
        length = HEADER_BYTES.get(data[1:9], OF_NO_NAME)
        self.market.limit = LIMITS[1 if data[1:9] == NAME_1 else 2]
        if len(data) < length:
            return 0
        front = data[:length]
        generation = int.from_bytes(front[9:17], "big")
        if front[1:9] in HEADER_BYTES and generation > 1:
            raise Halt(9, f"rotated {generation}")
        try:
            found = read_header(SIDE, front, length)
        except DamagedFile:
            raise damaged(0) from None
        if hashlib.sha256(found.fields).digest() != found.digest:
            raise damaged(0)
        self.begin = length
        return length

    def record(self, body: bytes) -> None:
        """Carries out the next record."""
        index = self.market.records + 1
        command = read_command(body[:96])
        if hashlib.sha256(big(8, 1, index) + body[:96]).digest() != body[96:] or command is None:
            raise damaged(index)
        if is_repeated(self.market, command):
            raise damaged(index)
        try:
            carry_out(self.market, command)
        except Refusal:
            raise damaged(index) from None


def damaged(index: int) -> Halt:
    """That a record of the input is damaged, or its header where that is 0."""
    return Halt(6, f"damaged input {index}")
