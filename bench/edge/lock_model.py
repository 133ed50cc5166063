"""What docs/locket.md and docs/journal.md say of a lock journal and of a script of lock commands, worked out apart from
the program.

A command is a tuple of a moment, an operation and an owner, and of a fence and a time to live where the operation has
them, else None.
"""

import json
import struct
from collections import namedtuple

MAGIC = b"DIEGOBBS"
KINDS = {"acquire": 32, "renew": 33, "release": 34}
LETTERS = b"ABCDEFGHIJKLMNOPQRSTUVWXYZabcdefghijklmnopqrstuvwxyz0123456789._-"
MOST_CHANGES = 1_000_000

Lease = namedtuple("Lease", "owner fence until")
State = namedtuple("State", "last seen held count")
Command = namedtuple("Command", "at op owner fence ttl")
UNUSED = State(0, 0, None, 0)


class Defect(Exception):
    """Why an area is no lock journal: the area, the offset and the word."""

    def __init__(self, area, at, word):
        super().__init__(word)
        self.line = line_of({"area": area, "at": at, "fault": word})


def line_of(members):
    return json.dumps(members, separators=(",", ":"), sort_keys=True).encode() + b"\n"


def step(state, command):
    """The state after a command, which is the same where nothing changes, and the answer."""
    at, op, owner, fence, ttl = command
    if at < state.seen:
        return state, refused(f"past {state.seen}")
    held = state.held
    if op == "acquire":
        if held is not None and at < held.until:
            return state, told("same", held) if held.owner == owner else refused(f"held {held.owner} {held.until}")
        lease = Lease(owner, state.last + 1, at + ttl)
        return change(state, at, lease.fence, lease, told("ok", lease))
    if held is None or (held.owner, held.fence) != (owner, fence):
        return state, refused(f"not holder {state.last}")
    if op == "release":
        return change(state, at, state.last, None, {"answer": "ok", "fence": fence, "until": None})
    if held.until <= at:
        return state, refused(f"expired {held.until}")
    if held.until == at + ttl:
        return state, told("same", held)
    lease = held._replace(until=at + ttl)
    return change(state, at, state.last, lease, told("ok", lease))


def change(state, at, last, held, answer):
    if state.count == MOST_CHANGES:
        return state, refused("lock full")
    return State(last, at, held, state.count + 1), answer


def told(word, lease):
    return {"answer": word, "fence": lease.fence, "until": lease.until}


def refused(why):
    return {"answer": "refused", "why": why}


def play(state, commands, first_line=1):
    """The state after commands, those that changed it, and the text that is printed of them."""
    done = []
    text = []
    for number, command in enumerate(commands, first_line):
        before = state
        state, answer = step(state, command)
        text.append(line_of({**answer, "line": number}))
        if state != before:
            done.append(command)
    text.append(line_of({"done": len(done), "doubts": 0, "last": state.last}))
    return state, done, b"".join(text)


def script(commands):
    lines = []
    for command in commands:
        lines.append(line_of({name: value for name, value in command._asdict().items() if value is not None}))
    return b"".join(lines)


def spelled(command):
    """The payload of a command."""
    at, op, owner, fence, ttl = command
    payload = struct.pack(">BIB", KINDS[op], at, len(owner)) + owner.encode()
    if fence is not None:
        payload += struct.pack(">Q", fence)
    if ttl is not None:
        payload += struct.pack(">I", ttl)
    return payload


def frame(command):
    payload = spelled(command)
    return b"\x01" + struct.pack(">H", len(payload)) + payload


def read_payload(payload):
    """The command of a payload, or None."""
    words = {kind: op for op, kind in KINDS.items()}
    if len(payload) < 6 or payload[0] not in words:
        return None
    op = words[payload[0]]
    (at,) = struct.unpack(">I", payload[1:5])
    length = payload[5]
    owner, rest = payload[6 : 6 + length], payload[6 + length :]
    form = {"acquire": ">I", "renew": ">QI", "release": ">Q"}[op]
    if not 1 <= length <= 80 or len(owner) < length or any(byte not in LETTERS for byte in owner):
        return None
    if len(rest) != struct.calcsize(form):
        return None
    numbers = struct.unpack(form, rest)
    fence = None if op == "acquire" else numbers[0]
    ttl = None if op == "release" else numbers[-1]
    return Command(at, op, owner.decode(), fence, ttl)


def header(name, area):
    """The generation of an open area, or None of one that is closed."""
    if len(area) < 2 or area[0] == 0:
        return None
    if area[1:9] != MAGIC or area[9:11] not in (b"\x00\x01", b"\x00\x02"):
        raise Defect(name, 0, "not a board")
    return int.from_bytes(area[11:19], "big")


def active(a, b):
    """The area that is read, by its name and bytes, and its generation."""
    found = [(name, area, header(name, area)) for name, area in (("a", a), ("b", b))]
    found = [entry for entry in found if entry[2] is not None]
    if not found:
        raise Defect("a", 0, "not a board")
    for name, area, _ in found:
        if len(area) < 19:
            raise Defect(name, len(area), "damaged")
    if len(found) == 2 and found[0][2] == found[1][2]:
        raise Defect("b", 11, "damaged")
    return max(found, key=lambda entry: entry[2])


def frames_from(name, area, generation):
    """Where the frames of the area that is read begin."""
    length = int.from_bytes(area[19:23], "big") if len(area) >= 23 else None
    if generation == 0:
        raise Defect(name, 11, "damaged")
    if length is not None and length >= 8 and len(area) >= 31:
        if generation > int.from_bytes(area[23:31], "big") + area[10]:
            raise Defect(name, 11, "damaged")
    if length is None or len(area) < 23 + length:
        raise Defect(name, len(area), "damaged")
    if area[23 : 23 + length] != bytes(24 if area[10] == 1 else 28):
        raise Defect(name, 23, "damaged")
    return 23 + length


def opened(a, b=b""):
    """The state of a lock journal, its commands, the area that holds it, and where its closed gate stands."""
    name, area, generation = active(a, b)
    at = frames_from(name, area, generation)
    state, commands = UNUSED, []
    while at < len(area) and area[at] != 0:
        size = int.from_bytes(area[at + 1 : at + 3], "big")
        payload = area[at + 3 : at + 3 + size]
        if not 1 <= size <= 512 or len(payload) < size:
            raise Defect(name, at, "damaged")
        command = read_payload(payload)
        if command is None or step(state, command)[0] == state:
            raise Defect(name, at, "damaged")
        state, _ = step(state, command)
        commands.append(command)
        at += 3 + size
    if at >= len(area):
        raise Defect(name, len(area), "damaged")
    return state, commands, name, at


def appended(area, at, commands):
    """The bytes of an area to which commands were added at its closed gate."""
    added = b"".join(frame(command) for command in commands)
    return area[:at] + (added + b"\x00" + area[at + len(added) + 1 :] if commands else area[at:])
