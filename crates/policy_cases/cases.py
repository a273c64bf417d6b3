#!/usr/bin/env python3
"""Writes the cases (data/, args) and what must be printed for them (stdout), by a model of its own.

The model shares nothing with the proved code: it goes by regular expressions and hashlib. It also
writes what policy_digest and the C program print for the sample policy.
"""
import hashlib
import os
import re

HERE = os.path.dirname(os.path.abspath(__file__))
ZERO = bytes(32)
CODES = {"pcr": 0x17F, "nv": 0x149, "time": 0x16D, "locality": 0x16F, "command": 0x16C,
         "presence": 0x187, "password": 0x16B}
PAIRS = r"((?:[0-9a-f]{2})*)"
NUMBER = r"(0|[1-9][0-9]*)"
FORMS = {
    "start": "", "presence": "", "password": "",
    "any": "\t" + NUMBER,
    "pcr": "\t([0-9a-f]{6})\t" + PAIRS,
    "nv": "\t" + PAIRS + "\t" + PAIRS + "\t" + NUMBER + "\t" + NUMBER,
    "time": "\t" + PAIRS + "\t" + NUMBER + "\t" + NUMBER,
    "locality": "\t([0-9a-f]{2})",
    "command": "\t([0-9a-f]{8})",
}
NUMBERS = {"any": [0], "nv": [2, 3], "time": [1, 2]}


class Fault(Exception):
    pass


def comparison(hashed, operand, offset, operation):
    return hashed(operand + offset.to_bytes(2, "big") + operation.to_bytes(2, "big"))


def read(line):
    word = line.split("\t")[0]
    found = re.fullmatch(re.escape(word) + FORMS[word], line) if word in FORMS else None
    if not found:
        raise Fault("text", 0x084)
    fields = [int(f) if i in NUMBERS.get(word, []) else bytes.fromhex(f)
              for i, f in enumerate(found.groups())]
    if any(isinstance(f, int) and f > 65535 for f in fields):
        raise Fault("text", 0x084)
    return word, fields


def judge(hashed, word, f):
    """The checks of the fields; answers what follows the command code in the string hashed."""
    if word == "any" and not 2 <= f[0] <= 8:
        raise Fault("text", 0x095)
    if word == "pcr":
        if len(f[1]) != 32:
            raise Fault("call", 0x095)
        return bytes([0, 0, 0, 1, 0, 0x0B, 3]) + f[0] + f[1]
    if word in ("nv", "time"):
        operand, offset, operation = f[-3:]
        if (word == "nv" and len(f[0]) != 34) or not 1 <= len(operand) <= 64:
            raise Fault("call", 0x095)
        if operation > 11:
            raise Fault("call", 0x084)
        return comparison(hashed, operand, offset, operation) + (f[0] if word == "nv" else b"")
    if word == "locality" and not 1 <= f[0][0] <= 0x1F:
        raise Fault("call", 0x08D)
    return b"".join(x for x in f if isinstance(x, bytes))


def lines_of(text):
    lines = text.split(b"\n")
    return lines[:-1] if lines[-1] == b"" else lines


def report(text, hash_name="sha256"):
    def hashed(data):
        return hashlib.new(hash_name, data).digest()

    lines = lines_of(text)
    if len(text) > 13440 or not 1 <= len(lines) <= 64:
        return "fault\t0\ttext\t095\n"
    stack = []
    try:
        for number, line in enumerate(lines, 1):
            word, fields = read(line.decode("latin-1"))
            body = judge(hashed, word, fields)
            if word == "start":
                stack.append((ZERO, 1))
                continue
            taken = fields[0] if word == "any" else 1
            if len(stack) < taken:
                raise Fault("text", 0x084)
            top, stack = stack[len(stack) - taken:], stack[:len(stack) - taken]
            if word == "any":
                joined = ZERO + (0x171).to_bytes(4, "big") + b"".join(d for d, _ in top)
                stack.append((hashed(joined), sum(b for _, b in top)))
            else:
                old, count = top[0]
                stack.append((hashed(old + CODES[word].to_bytes(4, "big") + body), count))
        if len(stack) != 1:
            raise Fault("text", 0x084)
    except Fault as fault:
        return "fault\t%d\t%s\t%03x\n" % (number, *fault.args)
    digest, branches = stack[0]
    return "lines\t%d\nbranches\t%d\ndigest\t%s\n" % (len(lines), branches, digest.hex())


DIGEST = "00112233445566778899aabbccddeeff" * 2
NAME = "000b" + "5a" * 32


def nv(name=NAME, operand="0000000000000005", offset="0", operation="3"):
    return "nv\t%s\t%s\t%s\t%s" % (name, operand, offset, operation)


def text(*lines):
    return "".join(line + "\n" for line in lines).encode("latin-1")


LONGEST = nv(operand="ab" * 64, offset="65535", operation="11")


def padded(size):
    """64 sound lines of `size` bytes in all, or nearly: the longest line again and again."""
    whole = text("start", *[LONGEST] * 63)
    return whole + b"\n" * (size - len(whole))


CASES = {
    # every word, with and without a last line feed
    "start": text("start"),
    "start-unended": b"start",
    "pcr": text("start", "pcr\t810000\t" + DIGEST),
    "pcr-none-selected": text("start", "pcr\t000000\t" + DIGEST),
    "nv": text("start", nv()),
    "nv-unended": text("start", nv())[:-1],
    "nv-longest": text("start", LONGEST),
    "time": text("start", "time\t0000000000000001\t8\t7"),
    "time-past-the-end": text("start", "time\t" + "00" * 64 + "\t65535\t0"),
    "locality": text("start", "locality\t08"),
    "locality-all": text("start", "locality\t1f"),
    "command": text("start", "command\t0000015e"),
    "presence": text("start", "presence"),
    "password": text("start", "password"),
    "any-two": text("start", "password", "start", "presence", "any\t2"),
    "any-order": text("start", "presence", "start", "password", "any\t2"),
    "any-eight": text(*["start"] * 8, "any\t8"),
    "any-then": text("start", "start", "any\t2", "password"),
    "any-nested": text("start", "password", "start", "presence", "start", "any\t2",
                       "command\t0000015e", "any\t2", "locality\t01"),
    "locality-never": text("start", "locality\t01", "locality\t02"),
    # text size
    "empty": b"",
    "lines-64": text(*["start"] * 32, *["any\t2"] * 31, "password"),
    "lines-64-unended": text(*["start"] * 32, *["any\t2"] * 31, "password")[:-1],
    "lines-65": text(*["start"] * 33, *["any\t2"] * 32),
    "lines-65-unended": text(*["start"] * 32, *["any\t2"] * 32) + b"x",
    "most-branches": text(*["start"] * 8, "any\t8", *(["start"] * 7 + ["any\t8"]) * 6,
                          *["start"] * 6, "any\t7"),
    "bytes-13440": (text("start", *[LONGEST] * 62) + b"x" * 13440)[:13440],
    "bytes-13441": (text("start", *[LONGEST] * 62) + b"x" * 13441)[:13441],
    "bytes-13441-line-feeds": padded(13441),
    "longest-sound": text("start", *[LONGEST] * 63),
    # form
    "blank": b"\n",
    "blank-second": b"start\n\n",
    "unknown-word": text("start", "sign"),
    "or-in-a-text": text("start", "or\t" + DIGEST + "\t" + DIGEST),
    "capital-word": text("Start"),
    "word-prefix": text("start", "pass"),
    "word-longer": text("starts"),
    "space": text("start", "password "),
    "carriage-return": b"start\r\n",
    "trailing-tab-start": text("start\t"),
    "trailing-tab": text("start", "presence\t"),
    "two-tabs": text("start", "locality\t\t08"),
    "field-missing": text("start", "locality"),
    "field-empty": text("start", "locality\t"),
    "field-too-many": text("start", "locality\t08\t08"),
    "pcr-one-field": text("start", "pcr\t810000"),
    "pcr-three-fields": text("start", "pcr\t810000\t" + DIGEST + "\t00"),
    "nv-three-fields": text("start", "nv\t" + NAME + "\t00\t0"),
    "nv-five-fields": text("start", nv() + "\t0"),
    "time-two-fields": text("start", "time\t00\t0"),
    "any-no-field": text("start", "start", "any"),
    "any-two-fields": text("start", "start", "any\t2\t2"),
    "capital-selection": text("start", "pcr\t81000A\t" + DIGEST),
    "capital-digest": text("start", "pcr\t810000\t" + DIGEST.upper()),
    "capital-operand": text("start", nv(operand="AB")),
    "odd-digits": text("start", "pcr\t810000\t" + DIGEST[:-1]),
    "not-a-digit": text("start", "command\t0000015g"),
    "selection-short": text("start", "pcr\t8100\t" + DIGEST),
    "selection-long": text("start", "pcr\t81000000\t" + DIGEST),
    "selection-empty": text("start", "pcr\t\t" + DIGEST),
    "set-long": text("start", "locality\t0800"),
    "command-short": text("start", "command\t00015e"),
    "command-long": text("start", "command\t000000015e"),
    "offset-leading-zero": text("start", nv(offset="007")),
    "offset-00": text("start", nv(offset="00")),
    "offset-plus": text("start", nv(offset="+1")),
    "offset-empty": text("start", nv(offset="")),
    "offset-65536": text("start", nv(offset="65536")),
    "offset-twenty-digits": text("start", nv(offset="18446744073709551616")),
    "offset-hexadecimal": text("start", nv(offset="1a")),
    "operation-65536": text("start", nv(operation="65536")),
    "operation-empty": text("start", nv(operation="")),
    "any-leading-zero": text("start", "start", "any\t02"),
    "any-empty": text("start", "start", "any\t"),
    "any-65536": text("start", "start", "any\t65536"),
    "byte-255": b"start\npassword\xff\n",
    "byte-0": b"start\n\x00\n",
    # checks of the fields
    "digest-empty": text("start", "pcr\t810000\t"),
    "digest-31": text("start", "pcr\t810000\t" + DIGEST[:62]),
    "digest-33": text("start", "pcr\t810000\t" + DIGEST + "00"),
    "name-33": text("start", nv(name=NAME[:66])),
    "name-35": text("start", nv(name=NAME + "00")),
    "name-empty": text("start", nv(name="")),
    "operand-empty": text("start", nv(operand="")),
    "operand-65": text("start", nv(operand="00" * 65)),
    "operand-5000": text("start", nv(operand="00" * 5000)),
    "time-operand-empty": text("start", "time\t\t0\t0"),
    "time-operand-65": text("start", "time\t" + "00" * 65 + "\t0\t0"),
    "operation-12": text("start", nv(operation="12")),
    "operation-65535": text("start", nv(operation="65535")),
    "time-operation-12": text("start", "time\t00\t0\t12"),
    "locality-00": text("start", "locality\t00"),
    "locality-20": text("start", "locality\t20"),
    "locality-ff": text("start", "locality\tff"),
    "any-0": text("start", "start", "any\t0"),
    "any-1": text("start", "start", "any\t1"),
    "any-9": text(*["start"] * 9, "any\t9"),
    "any-65535": text("start", "start", "any\t65535"),
    # the order of checks
    "form-before-fields": text("start", nv(operand="00" * 65, offset="007")),
    "form-of-a-later-field": text("start", nv(name="", operation="0x0")),
    "size-before-operation": text("start", nv(name="", operation="12")),
    "operand-before-operation": text("start", "time\t\t0\t12"),
    "fields-before-stack": text("locality\t00"),
    "any-count-before-stack": text("start", "any\t9"),
    "earlier-line-first": text("start", nv(operation="12"), "nonsense"),
    "size-before-lines": text("nonsense", *["start"] * 64),
    "last-line-before-stack": text("start", "start", "nonsense"),
    # the stack
    "stack-empty": text("presence"),
    "stack-empty-any": text("any\t2"),
    "stack-too-few": text("start", "any\t2"),
    "stack-too-few-three": text("start", "start", "any\t3"),
    "stack-two-left": text("start", "start"),
    "stack-two-left-later": text("start", "start", "password"),
    "stack-three-left": text("start", "start", "start", "start", "any\t2"),
}


def write(path, data):
    with open(os.path.join(HERE, path), "wb") as out:
        out.write(data)


if __name__ == "__main__":
    os.makedirs(os.path.join(HERE, "data"), exist_ok=True)
    for old in os.listdir(os.path.join(HERE, "data")):
        os.remove(os.path.join(HERE, "data", old))
    for name, case in CASES.items():
        write(os.path.join("data", name), case)
    write("args", "".join(name + "\n" for name in CASES).encode())
    write("stdout", "".join("%s\n%s%s" % (n, report(c), report(c, "sha3_256"))
                            for n, c in CASES.items()).encode())
    root = os.path.join("..", "..")
    with open(os.path.join(HERE, root, "samples", "exam-dock.policy"), "rb") as sample:
        policy = sample.read()
    write(os.path.join("..", "policy_digest", "stdout"), report(policy).encode())
    shown = ""
    for label, name in (("sha256", "sha256"), ("sha3-256", "sha3_256")):
        shown += label + "\n"
        for case, faulty in (("sample", policy), ("empty text", b""),
                             ("oversized text", bytes(13441)),
                             ("no such locality", text("start", "locality\t20"))):
            shown += case + "\n" + report(faulty, name)
        shown += "buffer too short\nfault\t0\tcall\t095\n"
    write(os.path.join(root, "firmware", "expected"), shown.encode())
