"""A capture file of messages in the format pcapng, as Wireshark opens it: each message is a datagram of UDP between the two ends on the port for the text of
H.248.1. Times rise by one step from a message to the next, and mean nothing else. It is installed too, so it knows nothing of this repository."""
import struct

from shared import annex_b

# The blocks and options of pcapng, and the number for a packet that begins with its IPv4 header.
SECTION, INTERFACE, PACKET, COMMENT, END = 0x0A0D0D0A, 1, 6, 1, 0
MAGIC, IPV4 = 0x1A2B3C4D, 228
# A step of time, in microseconds, which is the unit where a file names none.
STEP = 1000
# What a header of IPv4 and one of UDP take, and the largest datagram.
IP_HEADER, UDP_HEADER, LARGEST = 20, 8, 65_535
UDP = 17


class TooLong(ValueError):
    """A message that no datagram holds."""


def padded(data):
    """Bytes up to a multiple of four."""
    return data + bytes(-len(data) % 4)


def comment(text):
    """The options of a block that has a comment; none where that is empty."""
    data = text.encode()
    return struct.pack("<HH", COMMENT, len(data)) + padded(data) + struct.pack("<HH", END, 0) if data else b""


def block(kind, body):
    """A block of a capture."""
    length = struct.pack("<I", len(body) + 12)
    return struct.pack("<I", kind) + length + body + length


def checksum(data):
    """The checksum of the headers of IP and UDP (RFC 1071)."""
    total = sum(struct.unpack(f">{len(data + bytes(len(data) % 2)) // 2}H", data + bytes(len(data) % 2)))
    while total >> 16:
        total = (total & 0xFFFF) + (total >> 16)
    return total ^ 0xFFFF


def address(text):
    """An address in its four bytes."""
    return bytes(map(int, text.split(".")))


def datagram(number, source, target, data):
    """The bytes of a datagram from one end to the other, with a number that tells it from the others."""
    length = UDP_HEADER + len(data)
    if IP_HEADER + length > LARGEST:
        raise TooLong(f"message {number} has {len(data)} bytes, and a datagram at most {LARGEST - IP_HEADER - UDP_HEADER}")
    ends = address(source) + address(target)
    ports = struct.pack(">HHH", annex_b.PORT, annex_b.PORT, length)
    udp = checksum(ends + struct.pack(">HH", UDP, length) + ports + bytes(2) + data) or 0xFFFF
    head = struct.pack(">BBHHHBB", 0x45, 0, IP_HEADER + length, number & 0xFFFF, 0, 64, UDP)
    return head + struct.pack(">H", checksum(head + bytes(2) + ends)) + ends + ports + struct.pack(">H", udp) + data


def packet(number, message, said):
    """The block of a message, the first of which has the number 1, with a comment."""
    source, target = (annex_b.GATEWAY, annex_b.CONTROLLER) if message.is_gateways else (annex_b.CONTROLLER, annex_b.GATEWAY)
    data = datagram(number, source, target, message.text.encode())
    time = number * STEP
    head = struct.pack("<IIIII", 0, time >> 32, time & 0xFFFFFFFF, len(data), len(data))
    return block(PACKET, head + padded(data) + comment(said))


def of(messages, about, said_of):
    """The bytes of a capture of messages, with a comment of its own; `said_of` gives the comment of a message."""
    yield block(SECTION, struct.pack("<IHHq", MAGIC, 1, 0, -1) + comment(about))
    yield block(INTERFACE, struct.pack("<HHI", IPV4, 0, 0))
    for number, message in enumerate(messages, 1):
        yield packet(number, message, said_of(message))
