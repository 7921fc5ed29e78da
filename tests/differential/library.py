"""The library as Python functions: linked into a shared object and called on memory that is watched.

Each function takes plain values and gives back all that the call said and left: the returned number, *value, and what the caller lent for
writing. All of the memory ends where a page begins that nobody may touch, so a call that goes past an end stops the process; the bytes in front
of it and all that was lent for reading only are compared after each call.
"""
import ctypes
import itertools
import mmap
import os
import struct
import subprocess

HERE = os.path.dirname(os.path.abspath(__file__))
ARCHIVE = os.path.join(HERE, "..", "..", "target", "staticlib", "libwarnbox.a")
SENTENCE_ROOM = 4_096
TEXT_ROOM = 1 << 18
TABLE_ROOM = 1 << 13

UNSET = bytes.fromhex("a5c3960f1e2d3c4b")  # what *value holds before a call


def link(archive, folder):
    """Links the archive into a shared object, and gives its path."""
    shared = os.path.join(folder, "libwarnbox.so")
    subprocess.run(["cc", "-shared", "-o", shared, "-Wl,--whole-archive", archive, "-Wl,--no-whole-archive"], check=True)
    return shared


class Trespass(Exception):
    """A call wrote where it may not."""


# The header's structs, field for field; the header asserts the same sizes and offsets. Padding is skipped.
ENTRY_FIELDS = "B3xIIHBxQQQ"
ENTRY = struct.Struct("<" + ENTRY_FIELDS)
EVENT = struct.Struct("<2I")
SHEET = struct.Struct("<15Q")             # kind, then 14 numbers for either kind
WHY = struct.Struct("<4Q")                # area, kind, shape, count
PACKET = struct.Struct("<4Q6Q2I2i3H10B")  # four times, three spans, numbers, flags and codes
assert (ENTRY.size, EVENT.size, SHEET.size, WHY.size, PACKET.size) == (40, 8, 120, 32, 112)


def packed(table):
    return struct.pack("<" + ENTRY_FIELDS * len(table), *itertools.chain.from_iterable(table))


class Lent:
    """Memory for one parameter, lent anew for each call."""
    MARGIN = b"\x5a\xa5" * 32

    def __init__(self, name, room):
        page = mmap.PAGESIZE
        size = -(-(room + len(self.MARGIN)) // page) * page
        self.name = name
        self.map = mmap.mmap(-1, size + page)
        self.end = ctypes.addressof(ctypes.c_char.from_buffer(self.map)) + size
        self.held = b""
        self.null = False
        libc = ctypes.CDLL(None, use_errno=True)
        if libc.mprotect(ctypes.c_void_p(self.end), ctypes.c_size_t(page), 0) != 0:
            raise OSError(ctypes.get_errno(), "mprotect")

    def lend(self, content):
        """Puts the content, and gives its address; of no bytes, every second time, the null pointer."""
        self.held = self.MARGIN + content
        ctypes.memmove(self.end - len(self.held), self.held, len(self.held))
        self.null = not content and not self.null
        return None if self.null else self.end - len(content)

    def left(self):
        """What the call left there."""
        now = ctypes.string_at(self.end - len(self.held), len(self.held))
        if not now.startswith(self.MARGIN):
            raise Trespass(f"wrote in front of {self.name}")
        return now[len(self.MARGIN):]

    def unchanged(self):
        if ctypes.string_at(self.end - len(self.held), len(self.held)) != self.held:
            raise Trespass(f"wrote into {self.name}, which it may only read")


class Library:
    def __init__(self, shared):
        self.functions = ctypes.CDLL(shared)
        self.buffer = Lent("the buffer", SENTENCE_ROOM)
        self.text = Lent("the document, packet or text", TEXT_ROOM)
        self.value = Lent("*value", len(UNSET))
        self.table = Lent("the table", TABLE_ROOM)
        self.keys = Lent("the keys", TABLE_ROOM)
        self.events = Lent("the room for events", TABLE_ROOM)
        self.sheet = Lent("the sheet", SHEET.size)
        self.reason = Lent("the reason", WHY.size)
        self.parts = Lent("the packet's parts", PACKET.size)
        self.declare()

    def declare(self):
        """The types of results and parameters, as the header has them."""
        at, size, degrees = ctypes.c_void_p, ctypes.c_size_t, ctypes.c_int32
        byte, word, long = ctypes.c_uint8, ctypes.c_uint32, ctypes.c_uint64
        signatures = {
            "version": (word,),
            "refusal_name": (byte, at, size, size, byte, at),
            "write": (byte, at, size, size, at, size, at, at),
            "count": (byte, at, size, at),
            "read_back": (byte, at, size, size, at, at),
            "check_document": (byte, at, size, at),
            "document_sentence": (byte, at, size, size, at, size, size, at),
            "document_sheet": (byte, at, size, size, at, at),
            "document_place": (byte, at, size, size, degrees, degrees, at),
            "document_why": (byte, at, size, size, degrees, degrees, at, at),
            "read_packet": (byte, at, size, at),
            "packet_sentence": (byte, at, size, size, at, size, at),
            "packet_sheet": (byte, at, size, at),
            "packet_place": (byte, at, size, degrees, degrees, at),
            "receive": (byte, at, size, at, size, at, size, byte, long),
            "sweep": (None, at, size, long),
            "find_event": (size, at, size, word, word),
            "running": (byte, at, size, at, size, long, at),
        }
        for name, (result, *parameters) in signatures.items():
            function = getattr(self.functions, "warnbox_" + name)
            function.argtypes = parameters
            function.restype = result

    def told(self):
        """*value after a call."""
        return int.from_bytes(self.value.left(), "little")

    # ---- the library itself, and its refusals

    def version(self):
        return 0, self.functions.warnbox_version()

    def refusal_name(self, buffer, start, refusal):
        number = self.functions.warnbox_refusal_name(self.buffer.lend(buffer), len(buffer), start, refusal, self.value.lend(UNSET))
        return number, self.told(), self.buffer.left()

    # ---- CAP documents

    def check_document(self, document):
        number = self.functions.warnbox_check_document(self.text.lend(document), len(document), self.value.lend(UNSET))
        self.text.unchanged()
        return number, self.told()

    def document_sentence(self, buffer, start, document, part):
        number = self.functions.warnbox_document_sentence(
            self.buffer.lend(buffer), len(buffer), start, self.text.lend(document), len(document), part, self.value.lend(UNSET))
        self.text.unchanged()
        return number, self.told(), self.buffer.left()

    def document_sheet(self, document, part, sheet):
        number = self.functions.warnbox_document_sheet(
            self.text.lend(document), len(document), part, self.sheet.lend(SHEET.pack(*sheet)), self.value.lend(UNSET))
        self.text.unchanged()
        return number, self.told(), SHEET.unpack(self.sheet.left())

    def document_place(self, document, part, latitude, longitude):
        number = self.functions.warnbox_document_place(
            self.text.lend(document), len(document), part, latitude, longitude, self.value.lend(UNSET))
        self.text.unchanged()
        return number, self.told()

    def document_why(self, document, part, latitude, longitude, reason):
        """The last of what it gives is whether document_place says the same number and value."""
        number = self.functions.warnbox_document_why(
            self.text.lend(document), len(document), part, latitude, longitude, self.reason.lend(WHY.pack(*reason)), self.value.lend(UNSET))
        self.text.unchanged()
        told, left = (number, self.told()), WHY.unpack(self.reason.left())
        return *told, left, told == self.document_place(document, part, latitude, longitude)

    # ---- WARN packets

    def read_packet(self, packet, parts):
        number = self.functions.warnbox_read_packet(self.text.lend(packet), len(packet), self.parts.lend(PACKET.pack(*parts)))
        self.text.unchanged()
        return number, PACKET.unpack(self.parts.left())

    def packet_sheet(self, packet, sheet):
        number = self.functions.warnbox_packet_sheet(self.text.lend(packet), len(packet), self.sheet.lend(SHEET.pack(*sheet)))
        self.text.unchanged()
        return number, SHEET.unpack(self.sheet.left())

    def packet_sentence(self, buffer, start, packet):
        number = self.functions.warnbox_packet_sentence(
            self.buffer.lend(buffer), len(buffer), start, self.text.lend(packet), len(packet), self.value.lend(UNSET))
        self.text.unchanged()
        return number, self.told(), self.buffer.left()

    def packet_place(self, packet, latitude, longitude):
        number = self.functions.warnbox_packet_place(self.text.lend(packet), len(packet), latitude, longitude, self.value.lend(UNSET))
        self.text.unchanged()
        return number, self.told()

    # ---- the event table

    def receive(self, table, packet, keys, verified, clock):
        number = self.functions.warnbox_receive(
            self.table.lend(packed(table)), len(table), self.text.lend(packet), len(packet),
            self.keys.lend(struct.pack(f"<{len(keys)}I", *keys)), len(keys), verified, clock)
        self.text.unchanged()
        self.keys.unchanged()
        return number, list(ENTRY.iter_unpack(self.table.left()))

    def sweep(self, table, time):
        self.functions.warnbox_sweep(self.table.lend(packed(table)), len(table), time)
        return 0, list(ENTRY.iter_unpack(self.table.left()))

    def find_event(self, table, key, event):
        index = self.functions.warnbox_find_event(self.table.lend(packed(table)), len(table), key, event)
        self.table.unchanged()
        return 0, index

    def running(self, room, table, time):
        number = self.functions.warnbox_running(
            self.events.lend(b"".join(EVENT.pack(*event) for event in room)), len(room), self.table.lend(packed(table)), len(table), time,
            self.value.lend(UNSET))
        self.table.unchanged()
        return number, self.told(), list(EVENT.iter_unpack(self.events.left()))

    # ---- sheets and texts

    def write(self, buffer, start, text, sheet):
        number = self.functions.warnbox_write(
            self.buffer.lend(buffer), len(buffer), start, self.text.lend(text), len(text), self.sheet.lend(SHEET.pack(*sheet)),
            self.value.lend(UNSET))
        self.text.unchanged()
        self.sheet.unchanged()
        return number, self.told(), self.buffer.left()

    def count(self, text):
        number = self.functions.warnbox_count(self.text.lend(text), len(text), self.value.lend(UNSET))
        self.text.unchanged()
        return number, self.told()

    def read_back(self, text, k, sheet):
        number = self.functions.warnbox_read_back(
            self.text.lend(text), len(text), k, self.sheet.lend(SHEET.pack(*sheet)), self.value.lend(UNSET))
        self.text.unchanged()
        return number, self.told(), SHEET.unpack(self.sheet.left())
