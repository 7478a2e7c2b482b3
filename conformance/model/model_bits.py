"""Bits, fields, check sums and faults of the model."""

NAMES = {
    1: "Read", 2: "Memory", 3: "Truncated", 4: "BadMarker", 5: "NotStreamInfoFirst", 6: "ForbiddenType", 7: "BlockLength",
    8: "BadStreamInfo", 9: "RepeatedBlock", 10: "SeekOrder", 11: "CueSheet", 12: "BadSync", 13: "ReservedCode",
    14: "NotSubset", 15: "BadNumber", 16: "HeaderCheck", 17: "HeaderMismatch", 18: "Sequence", 19: "BlockSize",
    20: "BadSubframe", 21: "BadPredictor", 22: "BadPartition", 23: "ResidualRange", 24: "NonzeroPadding",
    25: "FrameTooLong", 26: "FrameCheck", 27: "SampleRange", 28: "TotalMismatch", 29: "Md5Mismatch", 30: "Sink",
    31: "BadPage", 32: "PageCheck", 33: "PageOrder", 34: "OtherStream", 35: "PacketLength", 36: "NoEndPage",
    37: "BadMapping", 38: "Spent", 39: "Write", 40: "BadRate", 41: "BadDepth", 42: "BadChannels", 43: "LengthsDiffer",
    44: "SampleTooLarge", 45: "TooLong", 46: "BadBlockSize", 47: "TooManyPoints", 48: "RawLength",
}
FRAME_LIMIT = 16777215


class Fault(Exception):
    """The first fault of a stream: its number and, once known, its place."""

    def __init__(self, number, place=None):
        super().__init__(number)
        self.number = number
        self.place = place

    def __str__(self):
        return f"{self.place}: {self.number} {NAMES[self.number]}"


def crc_table(width, generator):
    table = []
    for byte in range(256):
        value = byte << (width - 8)
        for _ in range(8):
            value = (value << 1) ^ (generator if value >> (width - 1) & 1 else 0)
            value &= (1 << width) - 1
        table.append(value)
    return table


TABLES = {8: crc_table(8, 0x07), 16: crc_table(16, 0x8005), 32: crc_table(32, 0x04C11DB7)}


def crc(width, data):
    table, mask, value = TABLES[width], (1 << width) - 1, 0
    for byte in data:
        value = ((value << 8) & mask) ^ table[(value >> (width - 8)) ^ byte]
    return value


class Bits:
    """The bits of `data`, most significant first. `fence` is the byte that no field of the present item may take."""

    def __init__(self, data):
        self.data = data
        self.place = 0
        self.fence = None

    def at_end(self):
        return self.place >= 8 * len(self.data)

    def stop(self):
        """A field goes past the input's end, or past the fence where the input reaches it."""
        if self.fence is not None and len(self.data) >= self.fence:
            raise Fault(25)
        raise Fault(3)

    def more(self):
        """Whether further bytes came; there are none but in packets."""
        return False

    def room(self):
        end = len(self.data)
        if self.fence is not None:
            end = min(end, self.fence)
        return 8 * end - self.place

    def need(self, count):
        while count > self.room():
            if (self.fence is not None and len(self.data) >= self.fence) or not self.more():
                self.stop()

    def take(self, count):
        if count == 0:
            return 0
        self.need(count)
        end = self.place + count
        word = int.from_bytes(self.data[self.place >> 3:(end + 7) >> 3], "big")
        self.place = end
        return (word >> (-end % 8)) & ((1 << count) - 1)

    def take_signed(self, count):
        value = self.take(count)
        return value - (1 << count) if count and value >> (count - 1) else value

    def unary(self, limit, number):
        """The count of zeros before a one; a zero past the limit is the fault `number`."""
        zeros = 0
        while True:
            self.need(1)
            count = min(64, self.room())
            word = self.take(count)
            lead = count - word.bit_length()
            zeros += lead
            if zeros > limit:
                raise Fault(number)
            if word:
                self.place -= count - lead - 1
                return zeros


class Content:
    """What is left of one metadata block, of which fields are taken."""

    def __init__(self, bits, length):
        self.bits = bits
        self.left = length

    def bytes(self, count):
        """A run of bytes whose count is known to fit in the block."""
        self.left -= count
        start = self.bits.place >> 3
        self.bits.need(8 * count)
        self.bits.place += 8 * count
        return self.bits.data[start:start + count]

    def field(self, size):
        """A field of fixed size; one that is too large for the block is a fault at the block's last byte."""
        if size > self.left:
            self.bytes(self.left)
            raise Fault(7)
        return self.bytes(size)

    def number(self, size, order="big"):
        return int.from_bytes(self.field(size), order)

    def text(self, order):
        length = self.number(4, order)
        if length > self.left:
            raise Fault(7)
        return self.bytes(length)

    def finish(self):
        if self.left:
            raise Fault(7)
