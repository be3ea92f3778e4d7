#!/usr/bin/env python3
"""Moves modules of theorems from a crate's specs/ to its proofs/, statements unchanged, and their paths wherever they are cited.

usage: tools/move_theorems.py CRATE MODULE..     in the top folder; a MODULE is a file of specs/ with its folder, or one file of a folder, as Laws or Keeps/Kept
"""
import os
import re
import subprocess
import sys


def main():
    crate, modules = sys.argv[1], sys.argv[2:]
    at = f"crates/{crate}"
    os.makedirs(f"{at}/proofs", exist_ok=True)
    lib = open(f"{at}/specs/Lib.antt").read()
    own = open(f"{at}/proofs/Lib.antt").read() if os.path.isfile(f"{at}/proofs/Lib.antt") else ""
    for it in modules:
        for name in (f"{it}.antt", it):
            if os.path.exists(f"{at}/specs/{name}"):
                os.makedirs(os.path.dirname(f"{at}/proofs/{name}"), exist_ok=True)
                subprocess.run(["git", "mv", f"{at}/specs/{name}", f"{at}/proofs/{name}"], check=True)
        line = f"pub mod {it}\n"
        if line in lib:
            lib = lib.replace(line, "")
            own += line
    open(f"{at}/specs/Lib.antt", "w").write(lib)
    open(f"{at}/proofs/Lib.antt", "w").write(own)
    words = "|".join(it.replace("/", r"\.") for it in modules)
    cite = re.compile(rf"\bRattle\.{crate}\.specs\.({words})(?=[.{{ ;])")
    for file in subprocess.run(["git", "ls-files", "crates"], stdout=subprocess.PIPE, check=True).stdout.decode().split("\n"):
        if file.endswith((".antt", ".rt")) and os.path.isfile(file):
            text = open(file).read()
            new = cite.sub(rf"Rattle.{crate}.proofs.\1", text)
            if new != text:
                open(file, "w").write(new)
    for file in subprocess.run(["git", "ls-files", f"{at}/must-fail"], stdout=subprocess.PIPE, check=True).stdout.decode().split():
        text = open(file).read()
        new = re.sub(rf"(?m)^file: specs/({words.replace(chr(92) + '.', '/')})(?=[/.])", r"file: proofs/\1", text)
        if new != text:
            open(file, "w").write(new)


main()
