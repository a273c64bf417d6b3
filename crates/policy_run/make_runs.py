#!/usr/bin/env python3
"""Writes the runs (data/, args) and what must be printed for them (stdout): python3 make_runs.py

A model of sessions that shares no code with the chest. The block is that of state_show.
"""
import hashlib
import importlib.util
import os

HERE = os.path.dirname(os.path.abspath(__file__))
spec = importlib.util.spec_from_file_location("make_block", os.path.join(HERE, "..", "state_show", "make_block.py"))
dock = importlib.util.module_from_spec(spec)
spec.loader.exec_module(dock)

CODES = {"pcr": 0x17F, "nv": 0x149, "time": 0x16D, "locality": 0x16F, "command": 0x16C, "presence": 0x187, "password": 0x16B, "or": 0x171}
TIME_INFO = dock.struct.pack(">QQIIB", dock.TIME, dock.CLOCK, dock.RESETS, dock.RESTARTS, dock.SAFE)


def sha(data):
    return hashlib.sha256(data).digest()


def be(n, size):
    return n.to_bytes(size, "big")


class Refused(Exception):
    pass


def compare(a, b, op):
    ua, ub = int.from_bytes(a, "big"), int.from_bytes(b, "big")
    sa, sb = int.from_bytes(a, "big", signed=True), int.from_bytes(b, "big", signed=True)
    return [ua == ub, ua != ub, sa > sb, ua > ub, sa < sb, ua < ub, sa >= sb, ua >= ub, sa <= sb, ua <= ub, ua & ub == ub, ua & ub == 0][op]


def part(value, operand, offset, past):
    if offset + len(operand) > len(value):
        raise Refused("call", past)
    return value[offset:offset + len(operand)]


class Session:
    def __init__(self):
        self.digest = bytes(32)
        self.count = self.command = self.set = None
        self.presence = self.password = False

    def line(self, text):
        word, *fields = text.split("\t")
        if word == "pcr":
            selection, digest = bytes.fromhex(fields[0]), bytes.fromhex(fields[1])
            if len(digest) != 32:
                raise Refused("call", "095")
            if self.count is not None and self.count != dock.COUNT:
                raise Refused("call", "128")
            picked = b"".join(dock.PCRS.get(8 * j + i, bytes(32)) for j in range(3) for i in range(8) if selection[j] >> i & 1)
            if sha(picked) != digest:
                raise Refused("call", "084")
            body = be(1, 4) + be(0xB, 2) + b"\x03" + selection + digest
            self.count = dock.COUNT
        elif word in ("nv", "time"):
            name = bytes.fromhex(fields.pop(0)) if word == "nv" else b""
            operand, offset, op = bytes.fromhex(fields[0]), int(fields[1]), int(fields[2])
            if word == "nv":
                held = dict(reversed(dock.ENTRIES))
                if name not in held:
                    raise Refused("state", "08b")
                a = part(held[name], operand, offset, "146")
            else:
                a = part(TIME_INFO, operand, offset, "08d")
            if not compare(a, operand, op):
                raise Refused("call", "126")
            body = sha(operand + be(offset, 2) + be(op, 2)) + name
        elif word == "locality":
            new = int(fields[0], 16)
            common = new if self.set is None else new & self.set
            if common == 0:
                raise Refused("call", "08d")
            self.set = common
            body = be(new, 1)
        elif word == "command":
            code = int(fields[0], 16)
            if self.command not in (None, code):
                raise Refused("call", "084")
            self.command = code
            body = be(code, 4)
        elif word == "or":
            digests = [bytes.fromhex(d) for d in fields]
            if not 2 <= len(digests) <= 8:
                raise Refused("call", "095")
            if self.digest not in digests:
                raise Refused("call", "084")
            self.digest, body = bytes(32), b"".join(digests)
        elif word in ("presence", "password"):
            setattr(self, word, True)
            body = b""
        else:
            raise Refused("text", "084")
        self.digest = sha(self.digest + be(CODES[word], 4) + body)

    def run(self, text):
        lines = text.split("\n")[:-1]
        for n, line in enumerate(lines, 1):
            try:
                self.line(line)
            except Refused as e:
                return f"fault\t{n}\t{e.args[0]}\t{e.args[1]}\n"
        return f"lines\t{len(lines)}\n"

    def shown(self):
        def record(word, value):
            return f"{word}\t{'none' if value is None else value}\n"

        def need(word, value):
            return f"{word}\t{'yes' if value else 'no'}\n"

        return (f"digest\t{self.digest.hex()}\n" + record("count", self.count)
                + record("command", None if self.command is None else f"{self.command:08x}")
                + record("localities", None if self.set is None else f"{self.set:02x}")
                + need("presence", self.presence) + need("password", self.password))


def dock_digest(selection, *pcrs):
    return f"pcr\t{selection}\t{sha(b''.join(dock.PCRS.get(i, bytes(32)) for i in pcrs)).hex()}\n"


def after(text):
    s = Session()
    assert s.run(text).startswith("lines"), text
    return s.digest.hex()


NAME = dock.NAME.hex()
BY_DOCK = dock_digest("810000", 0, 7) + "locality\t08\n"
RUNS = {
    "empty": "",
    "dock": BY_DOCK + f"or\t{after(BY_DOCK)}\t{after('password' + chr(10))}\ncommand\t0000015e\n",
    "password": "password\n" + f"or\t{after(BY_DOCK)}\t{after('password' + chr(10))}\ncommand\t0000015e\n",
    "values": f"nv\t{NAME}\tdeadbeef\t0\t0\nnv\t{NAME}\tfe\t1\t4\nnv\t{NAME}\tef\t3\t6\nnv\t{NAME}\tbeee\t2\t3\npresence\n",
    "time": "time\t00000003\t16\t7\ntime\t01\t24\t10\n",
    "last-pcr": dock_digest("000080", 23) + dock_digest("000000"),
    "sets": "locality\t03\nlocality\t06\nlocality\t01\n",
    "not-held": "presence\nnv\t" + "00" * 34 + "\t01\t0\t0\npassword\n",
    "past-the-end": f"nv\t{NAME}\tef00\t3\t0\n",
    "held-but-empty": f"nv\t{dock.OTHER_NAME.hex()}\t00\t0\t0\n",
    "time-past": "time\t0000\t24\t0\n",
    "signed": f"nv\t{NAME}\tfe\t0\t2\n",
    "other-pcrs": dock_digest("010000", 7),
    "two-commands": "command\t0000015e\ncommand\t00000153\n",
    "not-among": f"password\nor\t{'00' * 32}\t{'11' * 32}\n",
    "one-digest": f"password\nor\t{after('password' + chr(10))}\n",
    "no-word": "password\nstart\n",
}


def main():
    os.makedirs(os.path.join(HERE, "data"), exist_ok=True)
    with open(os.path.join(HERE, "data", "dock.block"), "wb") as f:
        f.write(dock.block())
    shown = ""
    for name, text in RUNS.items():
        with open(os.path.join(HERE, "data", name), "w") as f:
            f.write(text)
        session = Session()
        shown += session.run(text) + session.shown()
    with open(os.path.join(HERE, "stdout"), "w") as f:
        f.write(shown)
    with open(os.path.join(HERE, "args"), "w") as f:
        f.write("dock.block\n" + "".join(name + "\n" for name in RUNS))


if __name__ == "__main__":
    main()
