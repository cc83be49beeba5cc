#!/usr/bin/env python3
"""Vectors for the program `vectors`, and a second opinion on them.

  vectors.py shipped            the lines of crates/vectors/data/shipped.txt
  vectors.py fuzz SEED N        N more lines of signatures, good and damaged
  vectors.py check FILE..       works out the answer to each digest, verify, vouch and sizes line of its own

Signatures are made by Bouncy Castle, through Sign.java beside this file (Debian: libbcprov-java). Answers are
worked out here, with hashlib, by the algorithms of RFC 8554. Neither shares code with the library.
"""
import hashlib
import os
import random
import struct
import subprocess
import sys
import tempfile

from site_model import lengths

HERE = os.path.dirname(os.path.abspath(__file__))
JAR = os.environ.get("BOUNCY_CASTLE", "/usr/share/java/bcprov.jar")


def sha(*parts):
    return hashlib.sha256(b"".join(parts)).digest()


def word(n):
    return struct.pack(">I", n)


# ---- verification ----

def verify(key, message, signature):
    if len(key) != 56 or key[:8] != word(5) + word(4) or len(signature) != 1292:
        return False
    name, root = key[8:24], key[24:]
    q = struct.unpack(">I", signature[:4])[0]
    if signature[4:8] != word(4) or signature[1128:1132] != word(5) or q >= 32:
        return False
    random_part, path = signature[8:40], signature[1132:]
    digest = sha(name, word(q), b"\x81\x81", random_part, message)
    steps = digest + struct.pack(">H", sum(255 - b for b in digest))
    ends = []
    for i, a in enumerate(steps):
        value = signature[40 + 32 * i:72 + 32 * i]
        for j in range(a, 255):
            value = sha(name, word(q), struct.pack(">HB", i, j), value)
        ends.append(value)
    node = 32 + q
    value = sha(name, word(node), b"\x82\x82", sha(name, word(q), b"\x80\x80", *ends))
    for i in range(5):
        other = path[32 * i:32 * i + 32]
        pair = (other, value) if node % 2 else (value, other)
        node //= 2
        value = sha(name, word(node), b"\x83\x83", *pair)
    return value == root


class Shipped:
    def __init__(self):
        self.port, self.revoked, self.keys = 0, set(), {}

    def vouches(self, site, statement, tag):
        if site in self.revoked or len(statement) > 60 or site >= 16:
            return False
        return verify(self.keys.get(site, b"\0" * 56), word(self.port) + statement, tag)


# ---- signing ----

def sign(requests):
    """For each (seed, messages): the public key and the messages' signatures by leaves 0, 1, .."""
    with tempfile.TemporaryDirectory() as folder:
        subprocess.run(["javac", "-cp", JAR, "-d", folder, os.path.join(HERE, "Sign.java")], check=True)
        lines = "".join(" ".join([seed.hex()] + [m.hex() or "-" for m in ms]) + "\n" for seed, ms in requests)
        out = subprocess.run(["java", "-cp", JAR + ":" + folder, "Sign"], input=lines, text=True, capture_output=True, check=True)
    answers = []
    for line in out.stdout.split("\n")[:-1]:
        parts = [bytes.fromhex(w) for w in line.split()]
        answers.append((parts[0], parts[1:]))
    return answers


# ---- lines ----

def text(b):
    return b.hex() or "-"


def verify_line(name, key, message, signature):
    return f"verify {name} {text(key)} {text(message)} {text(signature)} {'yes' if verify(key, message, signature) else 'no'}"


def shipped():
    port = 4711
    prepare = bytes.fromhex("00000002" "00000009" "00000001" "00000001" "00000007" "000927c0" "01c9c380")
    long60, long61 = bytes(range(60)), bytes(range(61))
    first = [word(port) + prepare[:-1] + bytes([i]) for i in range(32)]
    second = [word(port) + prepare, word(port) + long60, word(port) + long61, prepare, word(port + 1) + prepare,
              prepare + word(port), word(port), long60 + bytes(4)]
    made = sign([(b"site 0", first), (b"site 1", second), (b"site 3", [word(port) + prepare]), (b"site 15", [word(port) + prepare])])
    check = Shipped()
    check.port, check.revoked = port, {3}
    lines = ["# The shipped check: port, revoked site, keys, and what it is asked.", f"port {port}", "revoke 3"]
    for site, (key, _) in zip((0, 1, 3, 15), made):
        check.keys[site] = key
        lines.append(f"key {site} {text(key)}")

    def ask(name, site, statement, tag):
        answer = "yes" if check.vouches(site, statement, tag) else "no"
        lines.append(f"vouch {name} {site} {text(statement)} {text(tag)} {answer}")

    for i, s in enumerate(made[0][1]):
        ask(f"leaf-{i}", 0, first[i][4:], s)
    s = made[1][1]
    ask("prepare", 1, prepare, s[0])
    ask("60-bytes", 1, long60, s[1])
    ask("61-bytes", 1, long61, s[2])
    ask("no-port", 1, prepare, s[3])
    ask("another-port", 1, prepare, s[4])
    ask("port-behind", 1, prepare, s[5])
    ask("empty-statement", 1, b"", s[6])
    ask("60-bytes-without-port", 1, long60, s[7])
    ask("another-site", 0, prepare, s[0])
    ask("a-site-without-key", 2, prepare, s[0])
    ask("a-revoked-site", 3, prepare, made[2][1][0])
    ask("the-last-site", 15, prepare, made[3][1][0])
    ask("site-16", 16, prepare, made[3][1][0])
    ask("another-statement", 1, prepare[:-1] + b"\0", s[0])
    ask("tag-cut", 1, prepare, s[0][:-1])
    ask("tag-one-byte-longer", 1, prepare, s[0] + b"\0")
    ask("no-tag", 1, prepare, b"")
    ask("leaf-32", 1, prepare, word(32) + s[0][4:])
    ask("another-leaf", 1, prepare, word(1) + s[0][4:])
    ask("one-time-type-3", 1, prepare, s[0][:4] + word(3) + s[0][8:])
    ask("tree-type-6", 1, prepare, s[0][:1128] + word(6) + s[0][1132:])
    return lines


def fuzz(seed, count):
    r = random.Random(seed)
    keys = max(1, count // 40)
    asked = [(r.randbytes(8), [r.randbytes(r.choice((0, 1, 28, 32, 56, 60, 64, 65, r.randrange(200)))) for _ in range(32)]) for _ in range(keys)]
    lines = []
    for (_, messages), (key, signatures) in zip(asked, sign(asked)):
        for i in range(32):
            lines.append(verify_line("good", key, messages[i], signatures[i]))
        for _ in range(8):
            i = r.randrange(32)
            parts = [bytearray(key), bytearray(messages[i]), bytearray(signatures[i])]
            part = parts[r.choice((0, 1, 2, 2, 2))]
            way = r.randrange(6)
            if way == 0 and part:
                del part[r.randrange(len(part)):]
            elif way == 1:
                part += r.randbytes(r.randrange(1, 40))
            elif way == 2:
                parts[2][:4] = word(r.choice((32, 33, 63, 64, 256, 2 ** 31, 2 ** 32 - 1)))
            elif way == 3:
                parts[r.choice((0, 2))][4:8] = word(r.randrange(10))
            elif way == 4:
                parts[2][1128:1132] = word(r.randrange(10))
            elif part:
                part[r.randrange(len(part))] ^= 1 << r.randrange(8)
            lines.append(verify_line("damaged", *map(bytes, parts)))
    return lines[:count]


def opinion(words, check):
    data = [b"" if w == "-" else bytes.fromhex(w) for w in words[2:5]] if words[0] == "verify" else None
    if words[0] == "verify":
        return verify(*data) == (words[5] == "yes")
    if words[0] == "digest":
        message = b"" if words[3] == "-" else bytes.fromhex(words[3])
        return hashlib.sha256(message * int(words[2])).hexdigest() == words[4]
    if words[0] == "vouch":
        statement, tag = (b"" if w == "-" else bytes.fromhex(w) for w in words[3:5])
        return check.vouches(int(words[2]), statement, tag) == (words[5] == "yes")
    if words[0] == "sizes":
        numbers = [int(w) for w in words[1:]]
        return lengths(*numbers[:3]) == tuple(numbers[3:])
    if words[0] == "port":
        check.port = int(words[1])
    if words[0] == "revoke":
        check.revoked.add(int(words[1]))
    if words[0] == "key":
        check.keys[int(words[1])] = bytes.fromhex(words[2])
    return None


def main():
    if sys.argv[1] == "shipped":
        print("\n".join(shipped()))
    elif sys.argv[1] == "fuzz":
        print("\n".join(fuzz(int(sys.argv[2]), int(sys.argv[3]))))
    else:
        agreed, check = [0, 0], Shipped()
        for path in sys.argv[2:]:
            for line in open(path):
                words = line.split()
                said = opinion(words, check) if words and words[0][0] != "#" else None
                if said is not None:
                    agreed[said] += 1
        print(f"{agreed[1]} agree, {agreed[0]} differ")


main()
