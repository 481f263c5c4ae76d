#!/usr/bin/env python3
"""Runs the scripts as a user would, and looks at what they print, what they say on standard error and their exit status.

`rt` and `cargo` are stand-ins here: nothing is proved or compiled. ./sheet runs the rowsheet that `./prove` built.
"""
import os
import pathlib
import shutil
import subprocess
import sys
import tempfile

ROOT = pathlib.Path(__file__).resolve().parent.parent
WORKED = ROOT / "oracle/examples/worked.s3m"
SHEET = (ROOT / "oracle/examples/worked.sheet").read_text()
TITLE = "order,pattern,row,held,speed,tempo,start,length,strikes\n"
COMMAND = "rust/target/release/lomqashe"


def run(*words, here=ROOT, stdout=subprocess.PIPE, **settings):
    """The exit status of a script, what it printed and what it said on standard error."""
    path = f"{settings.pop('tools')}:{os.environ['PATH']}"
    words = [str(word) for word in words]
    around = {name: value for name, value in os.environ.items() if not name.startswith("LOMQASHE_")}
    done = subprocess.run(
        words, cwd=here, stdin=subprocess.DEVNULL, stdout=stdout, stderr=subprocess.PIPE, text=True, check=False,
        env={**around, "PATH": path, **settings},
    )
    return done.returncode, done.stdout, done.stderr


def stand_in(folder, name, text):
    folder.mkdir(exist_ok=True)
    (folder / name).write_text(f"#!/bin/sh\n{text}\n")
    (folder / name).chmod(0o755)


def worked_edited(at, new):
    out = bytearray(WORKED.read_bytes())
    out[at : at + len(new)] = new
    return bytes(out)


def holds(got, status, printed, *said):
    """What is wrong with an answer: its status, what it printed (None: anything), words that its errors must have."""
    wrong = [] if got[0] == status else [f"status {got[0]}, not {status}"]
    if printed is not None and got[1] != printed:
        wrong.append(f"printed {got[1][-100:]!r}, not {printed[-100:]!r}")
    wrong += [f"did not say {word!r}: {got[2]!r}" for word in said if word not in got[2]]
    if not said and got[2]:
        wrong.append(f"said {got[2]!r}")
    return wrong


def sheet_cases(tools, folder):
    """./sheet with a prover that finds all proved."""
    def sheet(*words, **settings):
        return run(ROOT / "sheet", *words, here=folder, tools=tools, **settings)

    def written(name, file):
        (folder / name).write_bytes(file)
        return name

    many = written("7 patterns.s3m", worked_edited(36, [7, 0])[:96] + bytes(32))
    large = written("large.s3m", WORKED.read_bytes().ljust(65537, b"\0"))
    other = written("other.s3m", worked_edited(44, b"SCRN"))
    endless = written("endless.s3m", worked_edited(194, [0x20, 0x40, 0x01, 0x81, 0x02, 0x00, 0x00]))
    limits = ("65,536 bytes", "6 patterns", COMMAND, "cargo build --release")
    yield "the worked example", holds(sheet(WORKED), 0, SHEET)
    yield "7 patterns", holds(sheet(many), 1, f"{TITLE}refused,0\n", *limits)
    yield "65,537 bytes", holds(sheet(large), 1, f"{TITLE}refused,0\n", *limits)
    yield "rule 2", holds(sheet(other), 1, f"{TITLE}refused,2\n", "rule 2", "lomqashe.h")
    yield "no end", holds(sheet(endless), 0, None)
    yield "a directory", holds(sheet("."), 2, "", "sheet: . is a directory")
    yield "no file", holds(sheet("none.s3m"), 2, "", "sheet: cannot read none.s3m")
    yield "no words", holds(sheet(), 2, "", "usage: ./sheet FILE")
    status, printed, said = sheet("--help")
    yield "help", holds((status, printed[:19], said), 0, "usage: ./sheet FILE")
    with open("/dev/full", "w", encoding="utf-8") as full:
        yield "a full disk", holds(sheet(WORKED, stdout=full), 2, None, "sheet: the sheet was not written")
    reader, writer = os.pipe()
    os.close(reader)
    yield "a reader that has gone", holds(sheet(endless, stdout=writer), 0, None)
    os.close(writer)
    # A link in another folder to a link beside it.
    (folder / "links").mkdir()
    (folder / "links/near").symlink_to(ROOT / "sheet")
    (folder / "links/far").symlink_to("near")
    (folder / "further").symlink_to("links/far")
    yield "a linked script", holds(run(folder / "further", WORKED, here=folder, tools=tools), 0, SHEET)


def prove_cases(tools, folder):
    """./prove in a repository of three crates, of which `high` needs `low`."""
    repository = folder / "repository"
    for name in ("low", "high", "other"):
        (repository / "crates" / name).mkdir(parents=True)
        (repository / "crates" / name / "lib.rt").write_text("")
    (repository / "crates.txt").write_text("low:\nother: low\nhigh staticlib: low bytes\n")
    shutil.copy(ROOT / "prove", repository)
    made = "mkdir -p out; : >out/libhigh.a; : >out/high"

    def prove(*words):
        return run(repository / "prove", *words, here=folder, tools=tools)

    stand_in(
        tools,
        "rt",
        f"{made}; echo 'rt: chose --jobs 2 for high'; echo 'logic=proved functions=1'; echo $PWD $* >../../../asked",
    )
    told = ("2 crates, about 1 minutes", "crate 2 of 2 is proved: high")
    yield "nothing is there", holds(prove("staticlib", "high"), 0, "", *told)
    yield "what rt is asked", holds((0, (folder / "asked").read_text(), ""), 0, f"{repository}/crates/high lib\n")
    yield "what is made", holds((0, str((repository / "target/staticlib/libhigh.a").exists()), ""), 0, "True")
    stand_in(tools, "rt", made)
    again = "target/staticlib/libhigh.a is proved and compiled again first: up to a minute\n"
    yield "all is proved", holds(prove("staticlib", "high"), 0, "", again)
    newer(repository / "crates/other/lib.rt", repository / "target/staticlib/libhigh.a")
    yield "a crate that it does not need has changed", holds(prove("staticlib", "high"), 0, "", again)
    newer(repository / "crates/low/lib.rt", repository / "target/staticlib/libhigh.a")
    yield "a crate that it needs has changed", holds(prove("staticlib", "high"), 0, "", "2 crates")
    stand_in(tools, "rt", "echo 'fn low::f: not proved'; exit 1")
    yield "not proved", holds(prove("check", "high"), 2, "", "fn low::f: not proved")
    yield "no words", holds(prove(), 2, "", "usage")
    (repository / "target/bin").mkdir()
    (repository / "target/bin/high").write_text("")
    newer(repository / "target/bin/high", repository / "crates/low/lib.rt")
    stand_in(tools, "rt", made)
    yield "a program that is proved", holds(prove("check", "high"), 0, "")


def linked_cases(tools, folder):
    """bench/ and compare/ in a repository of their own, with a cargo that tells what it got and stops them there."""
    repository, original = folder / "repository", folder / "original"
    shutil.copytree(ROOT / "bench", repository / "bench")
    shutil.copytree(ROOT / "compare", repository / "compare")
    shutil.copytree(ROOT / "oracle", repository / "oracle")
    shutil.copy(ROOT / "prove", repository)
    (repository / "crates.txt").write_text("lomqashe:\nlomqashe_c staticlib:\npath_alone staticlib:\n")
    for name in ("lomqashe", "lomqashe_c", "path_alone"):
        (repository / "crates" / name).mkdir(parents=True)
    (original / "src").mkdir(parents=True)
    for name in ("header", "opl2", "pattern", "player"):
        (original / f"src/{name}.rs").write_text("")
    (folder / "archive").mkdir()
    stand_in(tools, "rt", "mkdir -p out; : >out/lib$(basename $PWD).a")
    stand_in(tools, "cargo", "echo archive ${LOMQASHE_ARCHIVE-none}, original $LOMQASHE_ORIGINAL >&2; exit 7")
    stand_in(tools, "valgrind", "")
    for script in ("bench/run", "bench/count", "compare/run"):
        def asked(*words, **settings):
            shutil.rmtree(repository / "target", ignore_errors=True)
            return run(repository / script, *words, here=folder, tools=tools, **{"LOMQASHE_ORIGINAL": "original", **settings})

        named = f"archive {folder}/archive, original {original}"
        proving = "target/staticlib/liblomqashe.a is proved and compiled first: 1 crates, about 1 minutes"
        status, printed, said = asked("--help", LOMQASHE_ORIGINAL="none")
        yield f"{script} --help", holds((status, printed.split(" [")[0], said), 0, f"usage: {script}")
        yield f"{script}, a wrong word", holds(asked("--rows"), 2, "", f"usage: {script}")
        yield f"{script}, no original", holds(asked(LOMQASHE_ORIGINAL="none"), 3, "", "original sources are not at none")
        yield f"{script}, proving", holds(asked(), 7, "", proving, f"archive none, original {original}")
        yield f"{script}, an empty name", holds(asked(LOMQASHE_ARCHIVE=""), 7, "", proving, "archive none")
        yield f"{script}, a near archive", holds(asked(LOMQASHE_ARCHIVE="archive"), 7, "", named)
        yield f"{script}, no archive", holds(asked(LOMQASHE_ARCHIVE="none"), 2, "", "no folder none")


def books_cases(tools, folder):
    """bench/books in a repository of its own, with a command that takes the book itself for its records and its columns."""
    repository = folder / "repository"
    for name in ("bench/books", "tests/files.py", "oracle/examples/worked.s3m"):
        (repository / name).parent.mkdir(parents=True, exist_ok=True)
        shutil.copy(ROOT / name, repository / name)

    def books(*words):
        return run(repository / "bench/books", *words, here=folder, tools=tools)

    release = repository / "rust/target/release"
    release.mkdir(parents=True)
    stand_in(tools, "gzip", "cat")
    stand_in(tools, "xz", "cat")
    yield "--help", holds(books("--help"), 0, None)
    yield "a wrong word", holds(books("--rows"), 2, "", "usage: bench/books")
    yield "no command", holds(books(), 2, "", "lomqashe is not here")
    stand_in(release, "lomqashe", 'case $1 in --restore) cp "$2" "$4" ;; *) cp "$5" "$2" && cp "$5" "$4" ;; esac')
    status, printed, said = books("kept")
    yield "a table", holds((status, str(printed.count("| 1.00 |")), said), 0, "8")
    yield "its files", holds((0, str(len(list((folder / "kept").iterdir()))), ""), 0, "16")
    stand_in(release, "lomqashe", 'case $1 in --restore) : >"$4" ;; *) cp "$5" "$2" && cp "$5" "$4" ;; esac')
    yield "other records", holds(books(), 1, None, "march: the columns do not give the records")
    stand_in(release, "lomqashe", "exit 1")
    yield "a command that refuses", holds(books(), 2, None, "status 1")


def newer(file, other):
    at = other.stat().st_mtime + 5
    os.utime(file, (at, at))


def main():
    total = wrong = 0
    with tempfile.TemporaryDirectory() as scratch:
        scratch = pathlib.Path(scratch)
        for cases in (sheet_cases, prove_cases, linked_cases, books_cases):
            tools, folder = scratch / f"{cases.__name__}-tools", scratch / cases.__name__
            folder.mkdir()
            stand_in(tools, "rt", "exit 0")
            for name, faults in cases(tools, folder):
                total += 1
                wrong += bool(faults)
                for fault in faults:
                    print(f"scripts: {cases.__name__}, {name}: {fault}", file=sys.stderr)
    print(f"scripts: {total - wrong} of {total} answers are as README has them")
    sys.exit(1 if wrong else 0)


main()
