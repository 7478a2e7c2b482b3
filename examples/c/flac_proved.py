"""FLAC for Python: streams are verified, described, decoded and encoded by proved code, through the calls of flac_proved.h.

    import flac_proved
    stream = flac_proved.open("song.flac")
    print(stream.info.rate, stream.tags.get("TITLE"), [picture.media for picture in stream.pictures])
    for frame in stream:
        left = numpy.asarray(frame)[:, 0]       # no copy; without numpy: frame.samples, a memoryview
    data = flac_proved.encode(numpy.zeros((44100, 2), "int32"), rate=44100, bits=16, comments=["TITLE=silence"])

Every error of a stream or of samples is an Error, which has the number, the name and the place of its reason (docs/errors.md). The shared library
is libflac_proved.so, which examples/c/Makefile builds and tools/install installs; FLAC_PROVED_LIBRARY names another. This module itself is not proved.
"""
from __future__ import annotations

import array
import builtins
import ctypes
import ctypes.util
import os
from typing import Any, Dict, Iterable, Iterator, List, NamedTuple, Optional, Sequence, Union

PLACES = {1: "marker", 2: "block", 3: "frame", 4: "page", 5: "end"}
SUBSET, LAX = 0, 1
MOST = (1 << 64) - 1
BYTES, INTS, SIZE, WORD, LONG = ctypes.POINTER(ctypes.c_uint8), ctypes.POINTER(ctypes.c_int32), ctypes.c_size_t, ctypes.c_uint32, ctypes.c_uint64


class Fault(ctypes.Structure):
    """Where and why a stream was refused."""

    _fields_ = [("number", WORD), ("place", WORD), ("index", LONG)]


class StreamInfo(ctypes.Structure):
    """What a stream says of itself: STREAMINFO, and how many comments it has."""

    _fields_ = [("total", LONG), ("comments", LONG), ("rate", WORD), ("channels", WORD), ("bits", WORD), ("least_block", WORD),
                ("greatest_block", WORD), ("least_frame", WORD), ("greatest_frame", WORD), ("digest", ctypes.c_uint8 * 16)]

    @property
    def md5(self) -> bytes:
        """The MD5 of all samples, zeros if unknown."""
        return bytes(self.digest)

    def __repr__(self) -> str:
        return f"StreamInfo(total={self.total}, rate={self.rate}, channels={self.channels}, bits={self.bits}, md5={self.md5.hex()})"


class Cursor(ctypes.Structure):
    """Where the next frame of a native stream begins, the number of its first sample, and what the stream says of itself."""

    _fields_ = [("offset", LONG), ("frames", LONG), ("sample", LONG), ("info", StreamInfo)]

    def copy(self) -> Cursor:
        """Another cursor at the same place."""
        return Cursor.from_buffer_copy(self)


class Span(ctypes.Structure):
    """Some bytes of a stream: how many, from which offset on."""

    _fields_ = [("offset", LONG), ("len", LONG)]

    def of(self, stream: bytes) -> memoryview:
        """These bytes, which are not copied."""
        return memoryview(stream)[self.offset:self.offset + self.len]


class PictureBlock(ctypes.Structure):
    """What flac_proved_blocks says of a picture."""

    _fields_ = [(name, WORD) for name in ("kind", "width", "height", "depth", "colours")] + [(name, Span) for name in ("media", "description", "data")]


class Block(ctypes.Structure):
    """A metadata block: where its header is, the bytes of its content, how many comments, seek points or tracks it has, and its type."""

    _fields_ = [("offset", LONG), ("length", LONG), ("parts", LONG), ("kind", WORD), ("last", WORD), ("picture", PictureBlock)]

    def content(self, stream: bytes) -> memoryview:
        """The content, which comes after the header; it is not copied."""
        return memoryview(stream)[self.offset + 4:self.offset + 4 + self.length]


class Wave(ctypes.Structure):
    """A WAV file: the format of its samples, of which a stream has `bits` bits, and where they are."""

    _fields_ = [("offset", LONG), ("len", LONG)] + [(name, WORD) for name in ("rate", "channels", "bits", "width")]

    def of(self, file: bytes) -> memoryview:
        """The bytes of the samples, which are not copied."""
        return memoryview(file)[self.offset:self.offset + self.len]


class Settings(ctypes.Structure):
    """What samples are, and how they are encoded."""

    _fields_ = [(name, WORD) for name in ("rate", "channels", "bits", "block_size", "seek_every", "ogg", "serial")]


class Options(ctypes.Structure):
    """In which profile samples are encoded, and with how much effort."""

    _fields_ = [("profile", WORD), ("effort", WORD)]


class Text(ctypes.Structure):
    _fields_ = [("bytes", ctypes.c_char_p), ("len", SIZE)]


class Tags(ctypes.Structure):
    _fields_ = [("vendor", Text), ("list", ctypes.POINTER(Text)), ("count", SIZE)]


class Error(Exception):
    """A stream was refused, or samples were not encoded. `number` and `name` are those of the reason, as 26 and FrameCheck; `place` is marker, block,
    frame, page or end, or None for samples; `index` counts blocks, frames or pages from 0."""

    def __init__(self, library: Library, number: int, place: int = 0, index: int = 0) -> None:
        reason = library.strerror(number)
        self.number, self.name, self.place, self.index = number, reason.partition(" ")[2], PLACES.get(place), index
        where = f"{self.place} {index}: " if place in (2, 3, 4) else f"{self.place}: " if place else ""
        super().__init__(where + reason)


class SeekPoint(NamedTuple):
    """A point of a seek table: the first sample of a frame, the frame's offset from the first frame, and how many samples it has."""

    sample: int
    offset: int
    length: int


class Picture(NamedTuple):
    """A picture; its data is a view of the stream."""

    kind: int
    media: str
    description: str
    width: int
    height: int
    depth: int
    colours: int
    data: memoryview


class Frame:
    """A frame: `first` is the number of its first sample, and `samples` a view of its samples, of shape (samples, channels). numpy.asarray takes it
    without a copy."""

    def __init__(self, first: int, samples: memoryview) -> None:
        self.first, self.samples = first, samples

    def __len__(self) -> int:
        return len(self.samples)

    def __array__(self, dtype: Any = None, copy: Optional[bool] = None) -> Any:
        import numpy
        found = numpy.asarray(self.samples)
        return found.astype(dtype, copy=bool(copy)) if dtype is not None else found.copy() if copy else found


def text(value: Union[str, bytes]) -> Text:
    data = value if isinstance(value, bytes) else value.encode()
    return Text(data, len(data))


def rows(numbers: memoryview, channels: int) -> memoryview:
    """Interleaved samples as a view of shape (samples, channels)."""
    flat = numbers.cast("B")
    return flat.cast("i", shape=[len(flat) // 4 // channels, channels]) if len(flat) else flat.cast("i")


def numbers_of(samples: Any) -> Any:
    """Samples as C takes them: a buffer of 32-bit numbers is not copied, unless it is read-only or has gaps."""
    try:
        view = memoryview(samples)
    except TypeError:
        return (ctypes.c_int32 * max(len(samples), 1))(*samples)
    if view.itemsize != 4 or view.format not in ("i", "l", "=i", "<i", "@i"):
        raise TypeError(f"samples of 32-bit numbers are wanted, not of format {view.format}")
    if not view.c_contiguous or view.readonly or not view.nbytes:
        return (ctypes.c_int32 * max(view.nbytes // 4, 1)).from_buffer_copy(view.tobytes() or bytes(4))
    return (ctypes.c_int32 * (view.nbytes // 4)).from_buffer(view.cast("B"))


def count_of(samples: Any) -> int:
    """How many samples these are."""
    count = getattr(samples, "size", None) if not isinstance(samples, (list, tuple, array.array)) else len(samples)
    return memoryview(samples).nbytes // 4 if count is None else count


class Library:
    """The library's calls. A stream is given as `bytes`; `profile` is SUBSET, or LAX for all streams."""

    def __init__(self, path: str) -> None:
        self.c = ctypes.CDLL(path)
        stream, fault, buffer = [ctypes.c_char_p, SIZE], [ctypes.POINTER(Fault)], [BYTES, SIZE, ctypes.POINTER(SIZE)]
        for name, result, arguments in (
                ("verify_in", WORD, stream + [WORD] + fault),
                ("info", WORD, stream + [ctypes.POINTER(StreamInfo)] + fault),
                ("comment", WORD, stream + [SIZE] + buffer + fault),
                ("vendor", WORD, stream + buffer + fault),
                ("blocks", WORD, stream + [ctypes.POINTER(Block)] + buffer[1:] + fault),
                ("decode_in", WORD, stream + [WORD, WORD] + buffer + fault),
                ("samples_in", WORD, stream + [WORD, INTS] + buffer[1:] + fault),
                ("native", WORD, stream + buffer + fault),
                ("pass_in", WORD, stream + [WORD, LONG, LONG, ctypes.POINTER(Cursor)] + fault),
                ("start", WORD, stream + [ctypes.POINTER(Cursor)] + fault),
                ("seek", WORD, stream + [LONG, ctypes.POINTER(Cursor)] + fault),
                ("next_in", WORD, stream + [WORD, ctypes.POINTER(Cursor), INTS] + buffer[1:] + fault),
                ("bound", LONG, [ctypes.POINTER(Settings), SIZE, ctypes.POINTER(Tags)]),
                ("encode_in", WORD, [ctypes.POINTER(Settings), ctypes.POINTER(Options), INTS, SIZE, ctypes.POINTER(Tags)] + buffer),
                ("wave", WORD, stream + [ctypes.POINTER(Wave)]),
                ("wave_samples", WORD, stream + [WORD, WORD, INTS] + buffer[1:]),
                ("wave_bytes", WORD, [INTS, SIZE, WORD, WORD] + buffer),
                ("wave_head", WORD, [WORD, WORD, WORD, LONG] + buffer),
                ("strerror", SIZE, [WORD, BYTES, SIZE]),
                ("place", SIZE, [WORD, BYTES, SIZE])):
            call = getattr(self.c, "flac_proved_" + name)
            call.restype, call.argtypes = result, arguments

    def asked(self, name: str, stream: bytes, *arguments: Any) -> None:
        """A call that fills in a fault; a fault is raised."""
        fault = Fault()
        if getattr(self.c, "flac_proved_" + name)(stream, len(stream), *arguments, ctypes.byref(fault)):
            raise Error(self, fault.number, fault.place, fault.index)

    def filled(self, name: str, stream: bytes, *arguments: Any, room: int = 0, unit: Any = ctypes.c_uint8) -> memoryview:
        """What a call writes into a buffer, which is as long as it has to be at the second call at the latest."""
        length = SIZE(room)
        while True:
            room = length.value
            out = (unit * max(room, 1))()
            self.asked(name, stream, *arguments, out, room, ctypes.byref(length))
            if length.value <= room:
                return memoryview(out).cast("B")[:length.value * ctypes.sizeof(unit)]

    def name(self, call: str, number: int) -> str:
        out = (ctypes.c_uint8 * 64)()
        return bytes(out[:getattr(self.c, "flac_proved_" + call)(number, out, 64)]).decode("ascii")

    def strerror(self, number: int) -> str:
        """Number and name of a reason."""
        return self.name("strerror", number)

    def place(self, kind: int) -> str:
        """The name of a kind of place."""
        return self.name("place", kind)

    def verify(self, stream: bytes, profile: int = SUBSET) -> None:
        """Raises Error if bytes are no whole stream."""
        self.asked("verify_in", stream, profile)

    def info(self, stream: bytes) -> StreamInfo:
        """The StreamInfo of a stream."""
        info = StreamInfo()
        self.asked("info", stream, ctypes.byref(info))
        return info

    def vendor(self, stream: bytes) -> bytes:
        """The name of the program that wrote a stream."""
        return bytes(self.filled("vendor", stream, room=256))

    def comments(self, stream: bytes) -> List[bytes]:
        """The comments of a stream."""
        return [bytes(self.filled("comment", stream, index, room=256)) for index in range(self.info(stream).comments)]

    def blocks(self, stream: bytes) -> List[Block]:
        """The metadata blocks of a native stream, as `native` gives it of an Ogg stream."""
        found = self.filled("blocks", stream, room=16, unit=Block)
        return list((Block * (len(found) // ctypes.sizeof(Block))).from_buffer_copy(found)) if len(found) else []

    def native(self, stream: bytes) -> bytes:
        """The native stream in an Ogg stream: of the same metadata blocks and frames."""
        return bytes(self.filled("native", stream, room=len(stream)))

    def decode(self, stream: bytes, width: int = 0, profile: int = SUBSET) -> bytes:
        """The samples of a stream as bytes, `width` each; if it is 0, those that `flac decode` writes."""
        info = self.info(stream)
        return bytes(self.filled("decode_in", stream, width, profile, room=info.total * info.channels * (width or (info.bits + 7) // 8)))

    def numbers(self, stream: bytes, profile: int = SUBSET) -> memoryview:
        """The samples of a stream, as a view of shape (samples, channels)."""
        info = self.info(stream)
        return rows(self.filled("samples_in", stream, profile, room=info.total * info.channels, unit=ctypes.c_int32), info.channels)

    def samples(self, stream: bytes, profile: int = SUBSET) -> array.array:
        """The samples of a stream, channel by channel at each index, as an array of numbers."""
        found = array.array("i")
        found.frombytes(self.numbers(stream, profile).tobytes())
        return found

    def start(self, stream: bytes) -> Cursor:
        """A Cursor at the first frame of a native stream."""
        cursor = Cursor()
        self.asked("start", stream, ctypes.byref(cursor))
        return cursor

    def seek(self, stream: bytes, sample: int) -> Cursor:
        """A Cursor at the frame that the seek table names for a sample, or at the first frame."""
        cursor = Cursor()
        self.asked("seek", stream, sample, ctypes.byref(cursor))
        return cursor

    def skip(self, stream: bytes, cursor: Cursor, count: int = MOST, sample: int = MOST, profile: int = SUBSET) -> None:
        """Passes frames: at most `count`, and none that ends after the sample of this number. The cursor is then at the next one, or at the end."""
        self.asked("pass_in", stream, profile, count, sample, ctypes.byref(cursor))

    def views(self, stream: bytes, cursor: Cursor, profile: int = SUBSET) -> Iterator[Frame]:
        """The frames from a cursor on; the cursor goes with them."""
        channels = cursor.info.channels
        while cursor.offset < len(stream):
            found = self.filled("next_in", stream, profile, ctypes.byref(cursor), room=cursor.info.greatest_block * channels, unit=ctypes.c_int32)
            samples = rows(found, channels)
            yield Frame(cursor.sample - len(samples), samples)

    def frames(self, stream: bytes, cursor: Cursor, profile: int = SUBSET) -> Iterator[array.array]:
        """The frames from a cursor on, each as an array of numbers; the cursor goes with them."""
        for frame in self.views(stream, cursor, profile):
            numbers = array.array("i")
            numbers.frombytes(frame.samples.tobytes())
            yield numbers

    def encode(self, samples: Any, rate: int, channels: int, bits: int, block_size: int = 4096, seek_every: int = 0, serial: Optional[int] = None,
               vendor: Union[str, bytes] = "flac_proved.py", comments: Sequence[Union[str, bytes]] = (), profile: int = SUBSET, effort: int = 0) -> bytes:
        """The stream of interleaved samples; an Ogg stream if it gets a serial number. `effort` 1 or 2 searches for linear predictors."""
        settings = Settings(rate, channels, bits, block_size, seek_every, serial is not None, serial or 0)
        options = Options(profile, effort)
        numbers, count = numbers_of(samples), count_of(samples)
        tags = Tags(text(vendor), (Text * max(len(comments), 1))(*map(text, comments)), len(comments))
        length = SIZE(self.c.flac_proved_bound(ctypes.byref(settings), count, ctypes.byref(tags)))
        while True:
            out = (ctypes.c_uint8 * length.value)()
            number = self.c.flac_proved_encode_in(ctypes.byref(settings), ctypes.byref(options), numbers, count, ctypes.byref(tags), out, len(out), ctypes.byref(length))
            if number:
                raise Error(self, number)
            if length.value <= len(out):
                return bytes(memoryview(out)[:length.value])

    def copied(self, name: str, *arguments: Any, room: int, unit: Any = ctypes.c_uint8) -> memoryview:
        """What a call without a fault writes into a buffer that is long enough."""
        out, length = (unit * max(room, 1))(), SIZE()
        number = getattr(self.c, "flac_proved_" + name)(*arguments, out, room, ctypes.byref(length))
        if number:
            raise Error(self, number)
        return memoryview(out).cast("B")[:length.value * ctypes.sizeof(unit)]

    def wave(self, file: bytes) -> Wave:
        """The format and the place of the samples of a WAV file."""
        wave = Wave()
        number = self.c.flac_proved_wave(file, len(file), ctypes.byref(wave))
        if number:
            raise Error(self, number)
        return wave

    def wave_samples(self, samples: bytes, width: int, bits: int) -> array.array:
        """Samples of a WAV file as numbers: each has `width` bytes, of which the highest `bits` bits count."""
        found = array.array("i")
        found.frombytes(self.copied("wave_samples", samples, len(samples), width, bits, room=len(samples) // max(width, 1), unit=ctypes.c_int32).tobytes())
        return found

    def wave_bytes(self, samples: Any, width: int, bits: int) -> bytes:
        """Numbers as samples of a WAV file, as `wave_samples` reads them."""
        count = count_of(samples)
        return bytes(self.copied("wave_bytes", numbers_of(samples), count, width, bits, room=count * width))

    def wave_head(self, rate: int, channels: int, bits: int, total: int = 0) -> bytes:
        """What comes before `total` samples of each channel in a plain WAV file; 0: their number is unknown."""
        return bytes(self.copied("wave_head", rate, channels, bits, total, room=104))


class Stream:
    """A stream in memory, native or Ogg. Its frames are what it gives one after another, each decoded when it is asked for. Frames are judged one by
    one: verify() judges the whole stream. `data` are its bytes, and `native` those of the native stream in it, in which blocks and frames are."""

    def __init__(self, data: bytes, lax: bool = False, library: Optional[Library] = None) -> None:
        self.data, self.profile, self.library = bytes(data), LAX if lax else SUBSET, library or default()
        self.info: StreamInfo = self.library.info(self.data)
        self.made: Optional[bytes] = None

    @property
    def is_ogg(self) -> bool:
        return self.data[:1] == b"O"

    @property
    def native(self) -> bytes:
        """The bytes of the native stream: `data`, or what the packets of an Ogg stream have. The pages of these are judged when it is first asked for."""
        if self.made is None:
            self.made = self.library.native(self.data) if self.is_ogg else self.data
        return self.made

    def verify(self) -> None:
        """Raises Error if the bytes are no whole stream."""
        self.library.verify(self.data, self.profile)

    @property
    def vendor(self) -> str:
        """The name of the program that wrote the stream."""
        return self.library.vendor(self.data).decode(errors="replace")

    @property
    def comments(self) -> List[str]:
        """The comments, each NAME=VALUE, in their order."""
        return [it.decode(errors="replace") for it in self.library.comments(self.data)]

    @property
    def tags(self) -> Dict[str, List[str]]:
        """The values of each name, which is in capitals."""
        found: Dict[str, List[str]] = {}
        for comment in self.comments:
            name, _, value = comment.partition("=")
            found.setdefault(name.upper(), []).append(value)
        return found

    @property
    def blocks(self) -> List[Block]:
        """The metadata blocks; their places are in `native`."""
        return self.library.blocks(self.native)

    @property
    def pictures(self) -> List[Picture]:
        """The pictures; their data is a view of `native`."""
        found = []
        for it in (block.picture for block in self.blocks if block.kind == 6):
            media, words = (bytes(span.of(self.native)).decode(errors="replace") for span in (it.media, it.description))
            found.append(Picture(it.kind, media, words, it.width, it.height, it.depth, it.colours, it.data.of(self.native)))
        return found

    @property
    def seek_points(self) -> List[SeekPoint]:
        """The points of the seek table, without those that are placeholders; their places are counted from the first frame in `native`."""
        found = []
        for block in self.blocks:
            if block.kind == 3:
                content = block.content(self.native)
                for at in range(0, len(content), 18):
                    point = SeekPoint(*(int.from_bytes(content[at + a:at + b], "big") for a, b in ((0, 8), (8, 16), (16, 18))))
                    if point.sample != (1 << 64) - 1:
                        found.append(point)
        return found

    def frames(self, sample: int = 0) -> Iterator[Frame]:
        """The frames from the one on that holds the sample of this number."""
        yield from self.library.views(self.native, self.cursor_at(sample), self.profile)

    def cursor_at(self, sample: int) -> Cursor:
        """A cursor at the frame that holds the sample of this number, or at the end: by the seek table, if a frame is where it says."""
        cursor = self.library.seek(self.native, sample)
        try:
            self.library.skip(self.native, cursor, sample=sample, profile=self.profile)
            first = next(self.library.views(self.native, cursor.copy(), self.profile), None)
            if first is None or first.first <= sample:
                return cursor
        except Error:
            pass
        cursor = self.library.start(self.native)
        self.library.skip(self.native, cursor, sample=sample, profile=self.profile)
        return cursor

    def frame(self, number: int) -> Frame:
        """The frame of this number, counted from 0; IndexError if there are fewer frames."""
        cursor = self.library.start(self.native)
        self.library.skip(self.native, cursor, count=number, profile=self.profile)
        return self.frame_after(cursor)

    def frame_of(self, sample: int) -> Frame:
        """The frame that holds the sample of this number, counted from 0; IndexError if there are fewer samples."""
        return self.frame_after(self.cursor_at(sample))

    def frame_after(self, cursor: Cursor) -> Frame:
        """The frame at a cursor."""
        for frame in self.library.views(self.native, cursor, self.profile):
            return frame
        raise IndexError("the stream has no such frame")

    def __iter__(self) -> Iterator[Frame]:
        return self.frames()

    def samples(self) -> memoryview:
        """All samples of the stream, which is verified, as a view of shape (samples, channels). numpy.asarray takes it without a copy."""
        return self.library.numbers(self.data, self.profile)


LOADED: Optional[Library] = None


def load(path: str) -> Library:
    """The library in a file."""
    return Library(path)


def default() -> Library:
    """The library that FLAC_PROVED_LIBRARY names; or else that beside this module, or that which is installed."""
    global LOADED
    if LOADED is None:
        folder = os.path.dirname(os.path.abspath(__file__))
        places = [os.path.join(folder, "libflac_proved.so"), os.path.join(folder, "..", "..", "libflac_proved.so")]
        found = os.environ.get("FLAC_PROVED_LIBRARY") or next(filter(os.path.exists, places), None) or ctypes.util.find_library("flac_proved")
        LOADED = load(found or "libflac_proved.so")
    return LOADED


def open(path: Union[str, os.PathLike], lax: bool = False) -> Stream:  # pylint: disable=redefined-builtin
    """The stream in a file, which is read as a whole. `lax` takes streams outside the streamable subset too."""
    with builtins.open(path, "rb") as file:
        return Stream(file.read(), lax)


def encode(samples: Any, rate: int, bits: int = 16, channels: Optional[int] = None, lax: bool = False, comments: Iterable[Union[str, bytes]] = (),
           **settings: Any) -> bytes:
    """The stream of samples: an array of shape (samples, channels), or interleaved samples of so many channels. A buffer of 32-bit numbers, as of numpy
    or array, is not copied. `settings` are block_size, seek_every, serial, vendor and effort, as Library.encode takes them."""
    if channels is None:
        shape = getattr(samples, "shape", None) or (len(samples),)
        channels = shape[1] if len(shape) == 2 else 1
    return default().encode(samples, rate, channels, bits, comments=list(comments), profile=LAX if lax else SUBSET, **settings)
