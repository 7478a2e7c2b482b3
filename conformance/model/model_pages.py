"""Ogg in the model: pages, packets, and a stream of one block or frame a packet."""
from model_bits import Bits, Fault, crc
from model_blocks import read_block
from model_frames import Reader

CONTINUED, FIRST, LAST = 1, 2, 4


class Pages:
    """Pages in order. `parts` are the parts of packets that are left in the page read last, each with whether its packet ends."""

    def __init__(self, data):
        self.data, self.at, self.count = data, 0, 0
        self.parts, self.open, self.last = [], False, False
        self.serial = self.sequence = None

    def take(self, size):
        if self.at + size > len(self.data):
            raise Fault(3, f"page {self.count}")
        self.at += size
        return self.data[self.at - size:self.at]

    def number(self, size):
        return int.from_bytes(self.take(size), "little")

    def load(self):
        """Reads and judges one page. There is one, or a fault."""
        place, start = f"page {self.count}", self.at
        if start == len(self.data):
            raise Fault(36, "end")
        if self.last:
            raise Fault(33, place)
        if self.take(4) != b"OggS" or self.take(1) != b"\0":
            raise Fault(31, place)
        flags, _, serial, sequence = (self.number(size) for size in (1, 8, 4, 4))
        check = self.number(4)
        lacing = self.take(self.number(1))
        body = self.take(sum(lacing))
        page = bytearray(self.data[start:self.at])
        page[22:26] = bytes(4)
        if crc(32, page) != check:
            raise Fault(32, place)
        if self.count and serial != self.serial:
            raise Fault(34, place)
        later = self.count > 0
        if bool(flags & CONTINUED) != self.open or (later and (flags & FIRST or sequence != (self.sequence + 1) % 2**32)):
            raise Fault(33, place)
        if not later and (not flags & FIRST or list(lacing) != [51]):
            raise Fault(37, "marker")
        self.serial, self.sequence, self.last = serial, sequence, bool(flags & LAST)
        self.count += 1
        self.cut(lacing, body)

    def cut(self, lacing, body):
        part, at = 0, 0
        for value in lacing:
            part += value
            if value < 255:
                self.parts.append((body[at:at + part], True))
                at, part = at + part, 0
        if lacing:
            self.open = lacing[-1] == 255
            if self.open:
                self.parts.append((body[at:], False))

    def begin(self):
        """Goes to the next packet; false where the page marked last holds no further one."""
        while not self.parts:
            if self.last:
                return False
            self.load()
        return True

    def finish(self):
        """No byte follows the page marked last."""
        if self.at < len(self.data):
            raise Fault(33, f"page {self.count}")


class PacketBits(Bits):
    """The bits of one packet. A page is read only once a field needs it."""

    def __init__(self, pages):
        super().__init__(b"")
        self.pages = pages
        self.ended = False
        self.join()

    def join(self):
        """Takes the next part of this packet from the page at hand."""
        if self.pages.parts:
            part, self.ended = self.pages.parts.pop(0)
            self.data += part

    def more(self):
        if self.ended or self.pages.last:
            return False
        self.pages.load()
        self.join()
        return True

    def stop(self):
        if self.fence is not None and len(self.data) >= self.fence:
            raise Fault(25)
        raise Fault(35)

    def finish(self):
        """The packet ends with its item; that may be told by the next page."""
        while self.room() == 0 and not self.ended:
            if not self.more():
                raise Fault(35)
        if self.room():
            raise Fault(35)


class OggReader(Reader):
    """A whole stream in Ogg, one block or frame a packet."""

    def open(self, data):
        self.pages = Pages(data)

    def item(self, call, *arguments):
        """One item that is a packet of its own."""
        if not self.pages.begin():
            raise Fault(35)
        self.bits = PacketBits(self.pages)
        return self.rest_of_item(call, *arguments)

    def rest_of_item(self, call, *arguments):
        result = call(*arguments)
        self.bits.fence = None
        self.bits.finish()
        return result

    def read_blocks(self):
        self.pages.begin()
        self.bits = PacketBits(self.pages)
        head = self.bits.take(13 * 8).to_bytes(13, "big")
        if head[:7] != b"\x7fFLAC\1\0" or head[9:] != b"fLaC":
            raise Fault(37, "marker")
        seen = set()
        last, *block = self.at("block 0", self.rest_of_item, lambda: read_block(self.bits, 0, seen))
        self.blocks.append(block)
        while not last:
            index = len(self.blocks)
            last, *block = self.at(f"block {index}", self.item, lambda: read_block(self.bits, index, seen))
            self.blocks.append(block)

    def read_frames(self):
        self.info = self.blocks[0][2]
        while self.pages.begin():
            samples = self.at(f"frame {self.frames}", self.item, self.frame)
            self.decode_into(samples)
        self.pages.finish()
        self.finish()
