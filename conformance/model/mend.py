"""Mends what some encoders write and the program refuses, so that the rest of such files can be compared too."""
import model


def least_block(data):
    """States a least block size of 16."""
    return data[:8] + (16).to_bytes(2, "big") + data[10:]


def header_length(data, at):
    """The bytes of a frame header without its check byte."""
    lead = data[at + 4]
    number = 1 if lead < 0x80 else next((n for n in range(2, 7) if not lead >> (7 - n) & 1), 7)
    size, rate = data[at + 2] >> 4, data[at + 2] & 15
    return 4 + number + {6: 1, 7: 2}.get(size, 0) + {12: 1, 13: 2, 14: 2}.get(rate, 0)


def checked(frame):
    """A frame with both checks made anew. Where its header cannot be as long as it says, the check of the header stays."""
    length = header_length(frame, 0)
    if length < len(frame) - 2:
        frame[length] = model.crc(8, frame[:length])
    return bytes(frame[:-2]) + model.crc(16, frame[:-2]).to_bytes(2, "big")


def strategy(data, places):
    """Sets the bit for variable blocking in every frame, with its checks: old encoders left it out."""
    frames = []
    for start, end in zip(places, places[1:] + [len(data)]):
        frame = bytearray(data[start:end])
        frame[1] |= 1
        frames.append(checked(frame))
    return data[:places[0]] + b"".join(frames)


def empty_packet(data):
    """Takes a packet of no bytes off the end of the last Ogg page."""
    at = data.rindex(b"OggS")
    page = bytearray(data[at:])
    if page[27 + page[26] - 1] != 0:
        return data
    del page[27 + page[26] - 1]
    page[26] -= 1
    page[22:26] = bytes(4)
    page[22:26] = model.crc(32, page).to_bytes(4, "little")
    return data[:at] + bytes(page)
