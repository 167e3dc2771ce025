"""The log of a served register (SQLite's WAL): which rows may have changed since a mark.

A log is a header of 32 bytes and frames: each a header of 24 bytes and the image of one page. The frames of the current log have the salt
of its header. After a checkpoint the log is restarted: the header gets a new salt, and frames are written from the start again, over the
old ones. The header changes at no other time. https://www.sqlite.org/fileformat2.html#walformat"""
import struct

HEADER, FRAME = 32, 24
# The first byte of a B-tree page. Any other page is an overflow page or a page of the free list.
TABLE_LEAF, BTREE_PAGES = 0x0d, (0x02, 0x05, 0x0a, 0x0d)
# The register writes one more frame after each commit, whose page is none of the database: it would be in a file of 17 TB.
NO_PAGE = 0xff000000


class Unreadable(Exception):
    """The frames do not show which rows have changed. The tables must be scanned."""


def varint(data, at):
    """Returns the variable-length integer at an offset, and the offset after it."""
    number = 0
    for _ in range(8):
        byte = data[at]
        at += 1
        number = number << 7 | byte & 127
        if byte < 128:
            return number, at
    return number << 8 | data[at], at + 1


def column_count(data, at):
    """Returns the number of columns of the record at an offset: the entries of its header."""
    length, place = varint(data, at)
    end, count = at + length, 0
    while place < end:
        _, place = varint(data, place)
        count += 1
    return count


def add_rowids(page_number, page, found):
    """Adds the rowids in the image of a page to a dictionary of sets by the number of columns of the table.

    Raises Unreadable for an overflow page: the row that continues on it may have changed without a change of its leaf."""
    start = 100 if page_number == 1 else 0
    if page[start] not in BTREE_PAGES:
        raise Unreadable
    if page[start] != TABLE_LEAF:
        return
    try:
        count, = struct.unpack_from(">H", page, start + 3)
        cells = struct.unpack_from(f">{count}H", page, start + 8)
        width = None
        for cell in cells:
            _, at = varint(page, cell)
            rowid, at = varint(page, at)
            if width is None:
                width = column_count(page, at)
                ids = found.setdefault(width, set())
            ids.add(rowid)
    except (struct.error, IndexError):
        raise Unreadable from None


class Log:
    """The log of a register's file, and the mark up to which its frames have been mirrored: a header and an offset."""

    def __init__(self, file):
        self.path = file + "-wal"
        self.mark = None

    def header(self):
        """Returns the header, or nothing if the log does not exist."""
        try:
            with open(self.path, "rb") as log:
                head = log.read(HEADER)
        except FileNotFoundError:
            return b""
        return head if len(head) == HEADER else b""

    def is_idle(self):
        """Returns whether nothing has been written since the mark. Reads 56 bytes."""
        if not self.mark:
            return False
        head, offset = self.mark
        try:
            with open(self.path, "rb") as log:
                if log.read(HEADER) != head:
                    return False
                log.seek(offset)
                return log.read(FRAME)[8:16] != head[16:24]
        except FileNotFoundError:
            return False

    def end(self):
        """Returns a mark at the end of the last commit in the log, or None if the log does not exist."""
        head = self.header()
        if not head:
            return None
        with open(self.path, "rb") as log:
            return head, self._walk(log, head[16:24], page_size(head), HEADER, None)

    def changed_rows(self):
        """Returns the rowids in all pages written since the mark, by the number of columns of their table, and the number of frames.

        The image of each frame counts, not only the last one of a page: the last transaction may be incomplete, and may have moved rows to
        a page that is not written yet. Raises Unreadable if frames may be missing."""
        head, found = self.header(), {}
        if not self.mark or not head:
            raise Unreadable
        old, offset = self.mark
        size, count = page_size(head), [0]

        def see(number, page):
            count[0] += 1
            add_rowids(number, page, found)
        with open(self.path, "rb") as log:
            if head == old:
                self._walk(log, head[16:24], size, offset, see)
                return found, count[0]
            # Restarted once: the rest of the old log, behind the mark, is still in place if the frame before the mark is. A restarted log
            # is overwritten from its start, and the register clears some 50 frames ahead of its end.
            sequence, old_sequence = (struct.unpack_from(">I", it, 12)[0] for it in (head, old))
            if sequence != old_sequence + 1 or offset <= HEADER or page_size(old) != size:
                raise Unreadable
            self._walk(log, old[16:24], size, offset, see)
            self._walk(log, head[16:24], size, HEADER, see)
            log.seek(offset - FRAME - size)
            if log.read(FRAME)[8:16] != old[16:24]:
                raise Unreadable
            return found, count[0]

    @staticmethod
    def _walk(log, salt, size, offset, see):
        """Calls `see` with the number and the image of each page from an offset on. Returns the end of the last commit."""
        end = offset
        while True:
            log.seek(offset)
            frame = log.read(FRAME + size)
            if len(frame) < FRAME + size or frame[8:16] != salt:
                return end
            number, commit = struct.unpack_from(">II", frame)
            if see and number < NO_PAGE:
                see(number, frame[FRAME:])
            if commit or number >= NO_PAGE and offset == end:
                end = offset + FRAME + size
            offset += FRAME + size


def page_size(header):
    return struct.unpack_from(">I", header, 8)[0]
