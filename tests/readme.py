#!/usr/bin/env python3
"""Looks for what README names: its files, the theorems, the files of its table of players, the Rust that is needed."""
import pathlib
import re
import sys

import files

ROOT = pathlib.Path(__file__).resolve().parent.parent
README = (ROOT / "README.md").read_text()
MADE = ("target/", "rust/target/", "vendor/", "../", ".cargo/")


def paths():
    """Paths in backticks and in links, but those that are made or stand elsewhere."""
    named = re.findall(r"`(?:\./)?([\w./-]+)`", README) + re.findall(r"\]\(([\w./-]+)\)", README)
    for name in sorted({name for name in named if "/" in name and not name.startswith(MADE)}):
        yield f"the path {name}", (ROOT / name).exists()


def theorems():
    """`name`, `name` and `name` in `crates/.../File.antt`: each is declared there."""
    told = re.findall(r"((?:`[\w-]+`(?:, | and |\s)*)+)in\s`(crates/[\w/]+\.antt)`", README)
    yield "theorems of seven files", len(told) == 7
    for names, file in told:
        text = (ROOT / file).read_text()
        for name in re.findall(r"`([\w-]+)`", names):
            yield f"the theorem {name} of {file}", re.search(rf"^pub {name} :", text, re.M) is not None


def players():
    table = README.split("\n## Where other players part")[1].split("\n## ")[0]
    rows = [row.split("|")[2] for row in table.splitlines() if row.startswith("| ")][1:]
    named = sorted(name for row in rows for name in re.findall(r"`([\w-]+)`", row))
    yield "the files of the table of players", named == sorted(files.PLAYERS)
    yield "a file in each row of that table", all("`" in row for row in rows)


def rust():
    least = re.search(r'rust-version = "([\d.]+)"', (ROOT / "rust/Cargo.toml").read_text()).group(1)
    yield f"Rust {least}", f"Rust {least} or later" in README


def main():
    found = [*paths(), *theorems(), *players(), *rust()]
    missing = [name for name, there in found if not there]
    for name in missing:
        print(f"readme: not there: {name}", file=sys.stderr)
    print(f"readme: {len(found) - len(missing)} of {len(found)} things that README names are there")
    sys.exit(1 if missing else 0)


main()
