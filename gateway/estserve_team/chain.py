"""What lets a record prove itself: each entry's hash is over the entry and the hash before it, and
the last ones stand in a second file, the head.

The head says how far the record has come. A record that has come further is whole, since the
gateway may have ended between the two; one that has not, or has other hashes, was cut, changed or
exchanged.

After its two places the head has blocks: what was recorded since the record was last synced, with
the tip after it. So one sync puts an entry and the tip on the disk. Where gateway or
system ends before the record has them too, the next start takes those rows over into it.
"""
import ast
import contextlib
import hashlib
import os
import pathlib
from typing import Any, List, NamedTuple, Optional, Sequence, Tuple

from .places import Failed

SLOT_BYTES = 1_024  # of each of the two places of the head, which are written in turn
BLOCKS_AT = 4_096  # where its blocks begin
HEAD_BYTES = BLOCKS_AT + (1 << 18)  # all of which is written once, so that no later sync takes long
BLOCK_STEP = 512  # each block begins at a multiple of this
REMEDY = "`team restore FILE` puts a backup in its place"
ACCEPTANCE = "`--accept` takes what is there for the record"


class NotProven(Failed):
    """The record is not what was written. Says where, and what can be done."""

    def __init__(self, path: pathlib.Path, why: str) -> None:
        super().__init__(f"the record {path} can't be trusted: {why}; {REMEDY}; {ACCEPTANCE}")
        self.path, self.why = path, why

    def after_accept(self) -> Failed:
        """What is told where `--accept` was asked for, and the record can't be taken so either."""
        return Failed(f"the record {self.path} can't be accepted: {self.why}; {REMEDY}")


def first_hash(record: str) -> bytes:
    """What stands before the first entry of a record."""
    return hashlib.sha256(b"estserve " + record.encode()).digest()


def hash_of(before: bytes, row: Sequence[Any]) -> bytes:
    """The hash of a row after the hash before it. Each field stands as Python writes it, in ASCII,
    so that no two rows are the same bytes."""
    return hash_of_text(before, text_of(row))


def text_of(row: Sequence[Any]) -> bytes:
    """A row as Python writes it, in ASCII."""
    return ascii(tuple(row)).encode()


def hash_of_text(before: bytes, text: bytes) -> bytes:
    """The hash of a row's text after the hash before it."""
    return hashlib.sha256(before + text).digest()


class Tip(NamedTuple):
    """How far a record has come: its name, the count and the last hash of its entries and of its
    connections that were given up, and what the rest of it may be, by hashes. `serial` counts
    what was written into a head."""

    record: str
    entries: int
    entry_hash: str
    givenup: int
    givenup_hash: str
    rest: Tuple[str, ...]
    serial: int = 0


def new_tip(record: str, rest: Tuple[str, ...] = ()) -> Tip:
    """The tip of a record that has nothing yet."""
    first = first_hash(record).hex()
    return Tip(record, 0, first, 0, first, rest)


def check_of(text: bytes) -> bytes:
    """What stands before a text of the head, by which one sees that it was written whole."""
    return hashlib.sha256(text).hexdigest()[:16].encode()


def tip_text(tip: Tip, serial: int) -> bytes:
    """A tip as the head has it under a number."""
    record, entries, entry_hash, givenup, givenup_hash, rest, _ = tip
    return (
        f"{serial} {record} {entries} {entry_hash} {givenup} {givenup_hash} {','.join(rest)}"
    ).encode()


def slot_of(tip: Tip) -> bytes:
    """A tip as one place of the head has it."""
    text = tip_text(tip, tip.serial)
    line = check_of(text) + b" " + text
    return line.ljust(SLOT_BYTES - 1) + b"\n"


def read_tip(text: str) -> Tip:
    """The tip that a text is. Raises ValueError."""
    serial, record, entries, entry_hash, givenup, givenup_hash, *rest = text.split(" ")
    known = tuple("".join(rest).split(",")) if rest else ()
    return Tip(record, int(entries), entry_hash, int(givenup), givenup_hash, known, int(serial))


def tip_of(slot: bytes) -> Optional[Tip]:
    """The tip that a place of the head has, if it was written whole."""
    try:
        check, _, text = slot.decode().strip().partition(" ")
        return read_tip(text) if check_of(text.encode()).decode() == check else None
    except ValueError:
        return None


def sync_folder(path: pathlib.Path) -> None:
    """Has the folder's names on the disk. Raises OSError."""
    folder = os.open(path, os.O_RDONLY | os.O_DIRECTORY)
    try:
        os.fsync(folder)
    finally:
        os.close(folder)


class Block(NamedTuple):
    """What one transaction has added, and the tip after it. Rows stand as `text_of` has them."""

    tip: Tip
    entries: List[bytes]
    connections: List[bytes]
    givenup: List[bytes]


def block_text(block: Block, serial: int) -> bytes:
    """A block as the head has it: its check and its length, the tip, and a line for each row."""
    text = tip_text(block.tip, serial)
    for mark, rows in zip((b"\ne", b"\nc", b"\ng"), block[1:]):
        if rows:
            text += mark + mark.join(rows)
    return b"%s %d\n%s" % (check_of(text), len(text), text)


def read_block(data: bytes, at: int) -> Optional[Tuple[Block, int]]:
    """The block that begins at a place, if it was written whole, and where the next one begins."""
    try:
        begin = data.index(b"\n", at, at + 64) + 1
        check, length = data[at : begin - 1].split(b" ")
        end = begin + int(length)
        text = data[begin:end]
        if len(text) != int(length) or check_of(text) != check:
            return None
        first, *rows = text.split(b"\n")
        for row in rows:
            row_of(row[1:])
        kinds = ([row[1:] for row in rows if row[:1] == letter] for letter in (b"e", b"c", b"g"))
        return Block(read_tip(first.decode()), *kinds), next_step(end)
    except ValueError:
        return None


def next_step(at: int) -> int:
    """The first place from here on at which a block may begin."""
    return -(-at // BLOCK_STEP) * BLOCK_STEP


def row_of(text: bytes) -> Tuple[Any, ...]:
    """The row that a text is. Raises ValueError."""
    try:
        found = ast.literal_eval(text.decode())
    except (SyntaxError, RecursionError, MemoryError) as fault:
        raise ValueError(text) from fault
    if not isinstance(found, tuple):
        raise ValueError(text)
    return found


class Head:
    """The head: two places, of which the one that was written last counts, and the blocks that were
    written since. Where one of those is not whole, the later ones say how far the record came."""

    def __init__(self, path: pathlib.Path) -> None:
        """Opens the file, and makes it where there is none. Raises Failed."""
        self.path = path
        flags = os.O_RDWR | os.O_CREAT | os.O_NOFOLLOW | os.O_CLOEXEC
        try:
            self._descriptor = os.open(path, flags, 0o600)
            held = os.pread(self._descriptor, HEAD_BYTES, 0)
        except OSError as fault:
            raise Failed(f"{path} cannot be opened: {fault.strerror}") from fault
        self._slots = [tip_of(held[at * SLOT_BYTES : (at + 1) * SLOT_BYTES]) for at in range(2)]
        self._next = 0
        self._serial = max((tip.serial for tip in self._slots if tip is not None), default=0)
        self._later: List[Tip] = []  # of whole blocks after one that is not
        self.blocks = self._read_blocks(held)
        self._end = BLOCKS_AT  # of the blocks that count
        self._is_filled = len(held) == HEAD_BYTES

    def _read_blocks(self, held: bytes) -> List[Block]:
        """The blocks that were written after both places, one after the other."""
        found: List[Block] = []
        at, last = BLOCKS_AT, self._serial
        while at < len(held):
            read = read_block(held, at)
            if read is None:
                at += BLOCK_STEP
                continue
            block, at = read
            if block.tip.serial > self._serial:
                is_next = not self._later and block.tip.serial == last + len(found) + 1
                (found.append(block) if is_next else self._later.append(block.tip))
                self._serial = block.tip.serial
        return found

    def tips(self) -> List[Tip]:
        """What was written whole."""
        slots = [tip for tip in self._slots if tip is not None]
        return [*slots, *(block.tip for block in self.blocks), *self._later]

    def blocks_of(self, record: str) -> List[Block]:
        """What the blocks have of the record of this name."""
        return [block for block in self.blocks if block.tip.record == record]

    def of(self, record: str) -> Optional[Tip]:
        """How far the record of this name has come; None where it is not known. What is written
        next leaves that place alone."""
        slots = enumerate(self._slots)
        known = [(tip.serial, at) for at, tip in slots if tip is not None and tip.record == record]
        if known:
            self._next = 1 - max(known)[1]
        tips = [tip for tip in self.tips() if tip.record == record]
        return max(tips, key=lambda tip: tip.serial) if tips else None

    def write(self, tip: Tip) -> None:
        """Writes a tip, which is on the disk when this returns, as the record is already: so the
        blocks count no more. Raises OSError."""
        self._fill()
        self._serial += 1
        tip = tip._replace(serial=self._serial)
        self._put(slot_of(tip), self._next * SLOT_BYTES)
        self._slots[self._next] = tip
        self._next = 1 - self._next
        self.blocks, self._later, self._end = [], [], BLOCKS_AT

    def add(self, block: Block) -> bool:
        """Writes a block, which is on the disk when this returns; answers false, with nothing
        written, where there is no place for it. Raises OSError."""
        data = block_text(block, self._serial + 1)
        is_first = not self.blocks and not self._later  # else those are taken over first
        if not is_first or not self._is_filled or self._end + len(data) > HEAD_BYTES:
            return False
        self._serial += 1
        self._put(data, self._end)
        self._end = next_step(self._end + len(data))
        return True

    def _put(self, data: bytes, at: int) -> None:
        """Has bytes on the disk. Raises OSError."""
        if os.pwrite(self._descriptor, data, at) != len(data):
            raise OSError(f"{self.path} was not written whole")
        os.fdatasync(self._descriptor)

    def _fill(self) -> None:
        """Has the file as long as it is to be. Where there is no room for that, it has no
        blocks."""
        if not self._is_filled:
            with contextlib.suppress(OSError):
                length = os.fstat(self._descriptor).st_size
                missing = bytes(max(0, HEAD_BYTES - length))
                self._is_filled = os.pwrite(self._descriptor, missing, length) == len(missing)
                os.fsync(self._descriptor)
                sync_folder(self.path.parent)

    def begin(self, tip: Tip) -> None:
        """Writes a tip in both places. Raises OSError."""
        self.write(tip)
        self.write(tip)

    def close(self) -> None:
        """Closes the file."""
        descriptor, self._descriptor = self._descriptor, -1
        if descriptor >= 0:
            os.close(descriptor)
