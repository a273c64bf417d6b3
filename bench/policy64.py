"""Writes the policy text that the benchmark digests: 64 lines, of every word."""
NAME = "000b" + "5a" * 32
DIGEST = "0123456789abcdef" * 4
lines = []
for i in range(8):
    lines += ["start", "pcr\t810000\t" + DIGEST, "nv\t%s\t%016x\t0\t3" % (NAME, i),
              "time\t%016x\t8\t7" % i, "locality\t08", "presence", "password"]
lines += ["any\t8", "command\t0000015e"]
lines += ["nv\t%s\t%s\t65535\t11" % (NAME, "ab" * 64)] * (64 - len(lines))
print("\n".join(lines))
