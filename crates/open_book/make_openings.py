#!/usr/bin/env python3
"""Writes the openings (data/, args) and what must be printed for them (stdout): python3 make_openings.py

A model of openings that shares no code with the chest, over the model of sessions beside policy_run.
"""
import importlib.util
import os

HERE = os.path.dirname(os.path.abspath(__file__))
spec = importlib.util.spec_from_file_location("make_runs", os.path.join(HERE, "..", "policy_run", "make_runs.py"))
runs = importlib.util.module_from_spec(spec)
spec.loader.exec_module(runs)

SHA256, SHA3_256 = 0x000B, 0x0027
UNSEAL = 0x15E
PASSWORD_LIMIT, CONTENT_LIMIT = 32, 128
FRONT = 2 + 32 + 1

TEXTS = {
    "dock": runs.RUNS["dock"],
    "head": runs.RUNS["password"],
    "password": "password\n",
    "locality": "locality\t09\n",
    "other-locality": "locality\t07\n",
    "certify": "password\ncommand\t00000148\n",
    "empty": "",
    # The dock's digest is not reached, for its second line is refused.
    "no-dock": runs.BY_DOCK.replace("locality\t08", "locality\t00") + "command\t0000015e\n",
    # What stands before the fault is enough.
    "enough": "password\nstart\n",
}


def digest_of(text):
    session = runs.Session()
    session.run(text)
    return session.digest


def book(text, password=b"", content=b"", identifier=SHA256):
    return identifier.to_bytes(2, "big") + digest_of(TEXTS[text]) + bytes([len(password)]) + password + content


KEY = bytes(range(0xF0, 0x100))
BOOKS = {
    "reader": book("dock", b"head", KEY),
    "other-hash": book("dock", b"head", KEY, SHA3_256),
    # The SHA-256 identifier with its bytes changed over.
    "turned": book("dock", b"head", KEY, 0x0B00),
    "locked": book("password", b"pupil", b"\x00\x01"),
    "open": book("password", b"", KEY),
    "longest": book("password", b"p" * PASSWORD_LIMIT, bytes(range(CONTENT_LIMIT))),
    "near": book("locality", b"", b"\x7f"),
    "far": book("other-locality", b"", b"\x7f"),
    "certified": book("certify", b"pupil", KEY),
    "blank": book("empty"),
    "short": book("empty")[:-1],
    "cut": book("password", b"pupil")[:-1],
    "long-password": book("password", b"p" * (PASSWORD_LIMIT + 1), KEY),
    "long-content": book("password", b"pupil", bytes(CONTENT_LIMIT + 1)),
}

# A text, a book and the password given, an empty line for none.
OPENINGS = [
    ("dock", "reader", ""),
    ("head", "reader", "head"),
    ("head", "reader", "pupil"),
    ("head", "other-hash", "head"),
    ("dock", "turned", ""),
    ("password", "reader", "head"),
    ("password", "locked", "pupil"),
    ("password", "locked", "pupils"),
    ("password", "locked", "pupi"),
    ("password", "locked", ""),
    ("password", "longest", "p" * PASSWORD_LIMIT),
    ("password", "longest", "p" * (PASSWORD_LIMIT + 1)),
    ("locality", "near", "looked-at-by-nobody"),
    ("other-locality", "far", ""),
    ("certify", "certified", "pupil"),
    ("no-dock", "reader", ""),
    ("enough", "locked", "pupil"),
    ("empty", "blank", ""),
    ("empty", "short", ""),
    ("password", "cut", "pupil"),
    ("password", "long-password", "p" * (PASSWORD_LIMIT + 1)),
    ("password", "long-content", "pupil"),
    ("password", "open"),
]


def refusal(session, identifier, digest, password, given):
    if identifier != SHA256 or digest != session.digest:
        return "09d"
    if session.command not in (None, UNSEAL):
        return "0a4"
    if session.set is not None and not session.set >> runs.dock.LOCALITY & 1:
        return "907"
    if session.presence and not runs.dock.PRESENCE:
        return "090"
    if session.password and given != password:
        return "08e"
    return None


def shown(text, data, given):
    if len(data) < FRONT or len(data) < FRONT + data[FRONT - 1]:
        return "fault\t0\tcall\t095\n"
    end = FRONT + data[FRONT - 1]
    password, content = data[FRONT:end], data[end:]
    if len(password) > PASSWORD_LIMIT or len(content) > CONTENT_LIMIT:
        return "fault\t0\tcall\t095\n"
    session = runs.Session()
    lines = session.run(text)
    refused = refusal(session, int.from_bytes(data[:2], "big"), data[2:34], password, given)
    if refused is None:
        return lines + f"content\t{content.hex()}\ntries\t0\n" + runs.Session().shown()
    tries = int(refused == "08e")
    return lines + f"refused\t{refused}\ntries\t{tries}\n" + session.shown()


def write(name, data):
    with open(os.path.join(HERE, name), "wb") as f:
        f.write(data)


def main():
    os.makedirs(os.path.join(HERE, "data"), exist_ok=True)
    write("data/dock.block", runs.dock.block())
    for name, text in TEXTS.items():
        write(f"data/{name}", text.encode())
    for name, data in BOOKS.items():
        write(f"data/{name}.book", data)
    args, printed = ["dock.block"], ""
    for text, name, *given in OPENINGS:
        args += [text, f"{name}.book", *given]
        printed += shown(TEXTS[text], BOOKS[name], "".join(given).encode())
    write("args", "".join(word + "\n" for word in args).encode())
    write("stdout", printed.encode())


if __name__ == "__main__":
    main()
