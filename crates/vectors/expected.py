# Writes what the program must print, by Python's own hashes: python3 expected.py > stdout
import hashlib

MESSAGES = {
    "empty": b"",
    "abc": b"abc",
    "448": b"abcdbcdecdefdefgefghfghighijhijkijkljklmklmnlmnomnopnopq",
    "896": b"abcdefghbcdefghicdefghijdefghijkefghijklfghijklmghijklmn"
    b"hijklmnoijklmnopjklmnopqklmnopqrlmnopqrsmnopqrstnopqrstu",
}
HASHES = {"sha256": hashlib.sha256, "sha3-256": hashlib.sha3_256}

for n in [*range(131), *range(134, 139), *range(271, 274)]:
    MESSAGES[f"len {n}"] = bytes((i * 7 + n) % 251 for i in range(n))
for name, digest in HASHES.items():
    for label, message in MESSAGES.items():
        print(f"{name} {label}\t{digest(message).hexdigest()}")
