"""The frames of a store's files, as docs/FORMATS.md has them: a length, its complement, the SipHash-1-3 of the bytes, the bytes.

SipHash is written here after its paper, so that the checksums on the disk are not compared with those of the program itself.
"""
from stores import Wrong

HEAD_BYTES = 16
WORD = (1 << 64) - 1
# The worked log record and frames of docs/FORMATS.md.
WORKED_RECORD = "01000000000000000100000001010001610000000131"
WORKED = {b"a": "00000001fffffffe407448d2b89b181361", b"": "00000000ffffffffd1fba762150c532c", b"seven": "00000005fffffffa01075f0222defe31736576656e"}


def turned(word, by):
    return (word << by | word >> 64 - by) & WORD


def siphash(data):
    """SipHash-1-3 under keys of zero."""
    a, b, c, d = (int.from_bytes(it, "big") for it in (b"somepseu", b"dorandom", b"lygenera", b"tedbytes"))

    def rounds(count):
        nonlocal a, b, c, d
        for _ in range(count):
            a, c = a + b & WORD, c + d & WORD
            b, d = turned(b, 13) ^ a, turned(d, 16) ^ c
            a, c = turned(a, 32) + d & WORD, c + b & WORD
            b, d = turned(b, 17) ^ c, turned(d, 21) ^ a
            c = turned(c, 32)

    padded = data + bytes(7 - len(data) % 8) + bytes([len(data) % 256])
    for at in range(0, len(padded), 8):
        word = int.from_bytes(padded[at : at + 8], "little")
        d ^= word
        rounds(1)
        a ^= word
    c ^= 255
    rounds(3)
    return a ^ b ^ c ^ d


def frame_of(data):
    return b"".join(it.to_bytes(n, "big") for it, n in ((len(data), 4), (2**32 - 1 - len(data), 4), (siphash(data), 8))) + data


def begins(data):
    """Where the frames of a file begin, each as documented and nothing behind the last one."""
    at, found = 0, []
    while at < len(data):
        end = at + HEAD_BYTES + int.from_bytes(data[at : at + 4], "big")
        if data[at:end] != frame_of(data[at + HEAD_BYTES : end]):
            raise Wrong(f"at {at} stands no frame as documented")
        found.append(at)
        at = end
    return found


def record_of(first, *ops):
    """The log record of a batch from a sequence on: each operation is a key and its value, or of a deletion a key alone."""
    parts = [(1, 1), (first, 8), (len(ops), 4)]
    return b"".join(it.to_bytes(n, "big") for it, n in parts) + b"".join(map(op_of, ops))


def op_of(op):
    key, value = op[0], b"".join(len(it).to_bytes(4, "big") + it for it in op[1:])
    return bytes([len(op) - 1]) + len(key).to_bytes(2, "big") + key + value


def last_of(frame):
    """The sequence of the last operation of a batch, of the frame of its log record."""
    first, count = (int.from_bytes(frame[HEAD_BYTES + at : HEAD_BYTES + end], "big") for at, end in ((1, 9), (9, 13)))
    return first + count - 1


def freeze_of(at):
    """The log record of a freeze."""
    return b"\2" + at.to_bytes(8, "big")


def check_worked():
    if record_of(1, (b"a", b"1")).hex() != WORKED_RECORD:
        raise Wrong(f"the log record of a put is {record_of(1, (b'a', b'1')).hex()}")
    for data, wanted in WORKED.items():
        if frame_of(data).hex() != wanted:
            raise Wrong(f"the frame of {data} is {frame_of(data).hex()}")
