#!/usr/bin/env python3
"""Brings the definitions and lemmas of specs/ and proofs/ to the spelling of today's Rattle, and renames two crates.

usage: python3 tools/respell.py          at the top of the repository, once, after the kit's port.py
       python3 tools/respell.py --list   says what it would rename, and which new names stand somewhere already

Functions and lemmas are in snake case, facts and types in camel case. A dash stays where it joins two names. What
the standards of hashing and signing name (Cksm, D-PBLC, Kc, ..) keeps the standards' spelling. Two crates have names
that are taken by the kit's libraries: hex is hexadecimal, and bytes is buffers.
"""
import glob
import os
import re
import subprocess
import sys

CRATES = {"hex": "hexadecimal", "bytes": "buffers"}
STANDARD = {"D-PBLC", "D-MESG", "D-LEAF", "D-INTR"}
# names that are joined from two names, and some that a plain rule would spoil
KEPT = {"length-laid", "length-tag", "length-hashed", "length-padding", "length-sha256", "length-row", "length-chain", "length-joined", "length-T", "block64-bytes", "block64-mod", "padding-mod"}
OTHER = {
    "getD-chunked": "get_or-chunked",
    "mapOk-same": "map_ok-same",
    "signature-read": "signature_read_lem",
    "key-read": "key_read_lem",
    "tag_read": "tag_read_lem",
    "with-tag": "with_tag_lem",
    "draft-by": "draft_by_lem",
    "message-by": "message_by_lem",
    "on-digit": "on_digit_lem",
    "bytes-append": "Bytes-append",
    "bytes-sha256": "Bytes-sha256",
    "bytes-summed": "Bytes-summed",
    "bytes-u16str": "Bytes-u16str",
    "bytes-words": "Bytes-words",
    "echoed-short": "Short-echoed",
    "registered-short": "Short-registered",
    "shipped-short": "Short-shipped",
    "signed-short": "Short-signed",
    "unlessRevoked-short": "Short-unless_revoked",
    "withPort-short": "Short-with_port",
}
DEF = re.compile(r"^(?:(?:abbrev|unfoldable) )?(?:pub )?(?:(?:record|data) )?(?:pub )?([^\s()]+) (?::|\()(.*)")
INNER = re.compile(r"^  +(?:pub )?([^\s()]+) :(.*)")
CHAR = r"[\w'′·-]"


def new_name(old):
    if old in OTHER:
        return OTHER[old]
    if old in KEPT or old in STANDARD:
        return old
    if old[0].isupper():
        return "".join(p[0].upper() + p[1:] for p in old.split("-"))
    return re.sub(r"(?<=[a-z0-9])([A-Z])", lambda m: "_" + m[1].lower(), old.replace("-", "_"))


def sources():
    return sorted(p for kind in ("rt", "antt") for p in glob.glob(f"crates/*/**/*.{kind}", recursive=True) if "/out/" not in p)


def defined():
    names = set()
    for p in sources():
        if not p.endswith(".antt"):
            continue
        for line in open(p):
            for m in (DEF.match(line), INNER.match(line)):
                if m and not m[2].strip().startswith(("goal.", "need.")):
                    names.add(m[1])
    return names


def renamed():
    return {n: new_name(n) for n in defined() if new_name(n) != n}


def respell(text, names, code):
    """Names of the code's own words stay: a dash is only a name's in antt, in ghost items and in clauses."""
    token = re.compile(rf"(?<!{CHAR}){CHAR}+")
    out = []
    for line in text.split("\n"):
        body, comment = line, ""
        cut = line.find("-- ") if not code else line.find("// ")
        if cut == 0 or (cut > 0 and line[:cut].strip() == ""):
            body, comment = "", line
        ghost = not code or re.search(r"\b(ghost|requires|ensures)\b", line)
        body = token.sub(lambda m: names.get(m[0], m[0]) if ghost or "-" not in m[0] else m[0], body)
        comment = token.sub(lambda m: names.get(m[0], m[0]) if "-" not in m[0] else m[0], comment)
        out.append(body + comment)
    return "\n".join(out)


def rename_crates(text, code):
    for old, new in CRATES.items():
        text = re.sub(rf"\bRattle\.{old}\.", f"Rattle.{new}.", text)
        if code:
            text = re.sub(rf"(?m)^(\s*(?:pub )?use ){old}::", rf"\1{new}::", text)
            text = re.sub(rf"(?<![\w:.]){old}::(?=\w)", f"{new}::", text)
    return text


def main():
    names = renamed()
    if "--list" in sys.argv:
        there = {}
        for p in sources():
            for word in re.findall(rf"(?<!{CHAR}){CHAR}+", open(p).read()):
                there.setdefault(word, set()).add(p)
        for old, new in sorted(names.items()):
            print(old, "->", new, *(sorted(there.get(new, ()))[:6]))
        return
    for p in sources():
        text = open(p).read()
        code = p.endswith(".rt")
        done = rename_crates(respell(text, names, code), code)
        if done != text:
            open(p, "w").write(done)
    for old, new in CRATES.items():
        if os.path.isdir(f"crates/{old}"):
            subprocess.run(["git", "mv", f"crates/{old}", f"crates/{new}"], check=True)
    lines = []
    for line in open("crates.txt").read().split("\n"):
        lines.append(line if line.startswith("#") else re.sub(r"\w+", lambda m: CRATES.get(m[0], m[0]), line))
    open("crates.txt", "w").write("\n".join(lines))


main()
