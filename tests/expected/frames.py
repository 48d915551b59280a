"""The rules (docs/RULES.md) on frames and the bench sender, for the scripts beside this one; nothing here comes from the crates.

A session is its size, count and next packet, and its 89 bytes. A sender's last kept time is whether there is one, and which.
"""
from payload import read_payload, write_payload

BYTES = 89
FRESH = (0, 0, 0, bytes([255] * BYTES))
NO_TIME = (False, 0)
LONGEST = 750


def up(size):
    return -(-size // 7)


def is_payload_size(size):
    return size == 17 or 20 <= size <= BYTES


def frame_fault(ident, data):
    if ident >= 1 << 29 or len(data) != 8:
        return 1
    if ident & 0x03000000 or (ident >> 16) & 0xFF not in (235, 236) or (ident >> 8) & 0xFF != 255:
        return 2
    return 3 if ident & 0xFF > 253 else 0


def is_fit(session):
    size, count, nxt, _ = session
    return (size, count, nxt) == (0, 0, 0) or (is_payload_size(size) and count == up(size) and 1 <= nxt <= count)


def refuse(n, *left):
    return "refused %d" % n, *left


def closed_of(session):
    return (0, 0, 0, session[3])


def take(session, ident, data):
    """The answer, as text or as the report that it completes, and the session that is left."""
    fault = frame_fault(ident, data)
    if fault:
        return refuse(fault, session)
    if not is_fit(session):
        return refuse(24, session)
    size, count, nxt, held = session
    closed = closed_of(session)
    if (ident >> 16) & 0xFF == 236:
        if data[0] != 32:
            return refuse(4, session)
        total = data[1] + 256 * data[2]
        if not 9 <= total <= 1785 or data[3] != up(total):
            return refuse(5, closed)
        if data[5] + 256 * data[6] + 65536 * data[7] != 65300:
            return refuse(6, closed)
        if not is_payload_size(total):
            return refuse(7, closed)
        return "kept", (total, data[3], 1, bytes([255] * BYTES))
    if size == 0:
        return refuse(8, session)
    if data[0] != nxt:
        return refuse(9, closed)
    at = 7 * (nxt - 1)
    part = data[1:][:size - at]
    held = held[:at] + part + held[at + len(part):]
    if nxt < count:
        return "kept", (size, count, nxt + 1, held)
    return read_payload(held[:size]) or "refused 10", (0, 0, 0, held)


def take_at(session, last, time, ident, data):
    """The same of a frame that came at a time, and its sender's last kept time behind it."""
    fault = frame_fault(ident, data)
    if fault:
        return refuse(fault, session, last)
    known, before = last
    if not is_fit(session) or (not known and before != 0):
        return refuse(24, session, last)
    if known and time < before:
        return refuse(26, session, last)
    if known and time - before > LONGEST:
        session = closed_of(session)
    answer, left = take(session, ident, data)
    kept = not isinstance(answer, str) or answer == "kept"
    return answer, left, (True, time) if kept else last


def send(room, sender, report, note):
    """The refusal's number, or 0, and the frames: identifiers with their data. A report is its loss, shake, own number and heat or None."""
    loss, shake, _, heat = report
    if sender > 253:
        return 3, []
    if loss > 4095 or shake > 4095 or heat is not None and heat > 4095:
        return 12, []
    if note is not None and len(note) > 64:
        return 19, []
    p = write_payload(*report, note)
    if room < 12 * (1 + up(len(p))):
        return 20, []

    def frame(kind, data):
        return 7 << 26 | kind << 16 | 255 << 8 | sender, data
    opening = bytes([32, len(p) % 256, len(p) // 256, up(len(p)), 255, 0x14, 0xFF, 0x00])
    return 0, [frame(236, opening)] + [frame(235, bytes([i + 1]) + p[7 * i:7 * i + 7].ljust(7, b"\xff")) for i in range(up(len(p)))]
