#!/usr/bin/env python3
"""Counts what docs/DESIGN-PASS.md speaks of, in crates/*/src of the folder that it is run in.

    python3 tools/places.py [-v]

Each line: the point, what is counted, how many; -v lists the places.
"""
import collections
import glob
import re
import sys

VERBOSE = "-v" in sys.argv
FILES = sorted(glob.glob("crates/*/src/**/*.rt", recursive=True))
TEXT = {f: open(f).read() for f in FILES}


def places(pattern, flags=re.M):
    return [(f, t.count("\n", 0, m.start()) + 1, m.group(0).strip().split("\n")[0])
            for f, t in TEXT.items() for m in re.finditer(pattern, t, flags)]


def named(names):
    return places(r"^ *(?:pub )?(?:const )?fn (?:%s)\b" % "|".join(names))


def show(point, what, found):
    print(f"{point}  {len(found):4}  {what}")
    if VERBOSE:
        for f, line, text in found:
            print(f"          {f[7:]}:{line}: {text[:90]}")


# The functions with what they require, and their parameters.
FUNCTION = re.compile(
    r'^ *(?:pub )?(?:extern "C" )?fn (\w+)(?:<[^(]*>)?\(([^{}]*?)\)(?: -> [^\n{]*)?(?: \{|\n)((?: +(?:requires|ensures).*\n(?: {8,}.*\n)*)*)', re.M)


def functions():
    for f, t in TEXT.items():
        for m in FUNCTION.finditer(t):
            yield f, t.count("\n", 0, m.start()) + 1, m.group(1), m.group(2), m.group(3)


def facts():
    found = collections.defaultdict(list)
    for f, line, name, _, clauses in functions():
        for clause in re.findall(r"requires(?: \w+)? \{ (.*) \}", clauses):
            for fact in re.split(r" × ", clause):
                fact = re.sub(r"\b(?:\w+\.)*clock\.", "clock.", fact.strip("() "))
                found[(f.split("/")[1], fact)].append((f, line, f"{name}: {fact}"))
    return [p for ps in found.values() if len(ps) >= 3 for p in ps]


def groups(names):
    return [(f, line, name) for f, line, name, args, _ in functions() if all(re.search(r"\b%s:" % n, args) for n in names)]


show(1, "enums of the shape of Option or Result", [p for p in places(r"^(?:pub )?enum \w+ \{[^}]*\}", re.M | re.S)
     if re.search(r"None|Refused|Stay|\bNo\b|Done", TEXT[p[0]].split("\n" + p[2], 1)[-1].split("}")[0])])
show(1, "functions and fields with a refusal as a number",
     places(r"^ *(?:pub )?fn (?:\w+_rule|refusal|first_of)\([^{]*?-> u8") + places(r"^ *pub refusal: u8|(?<=\()rule: u8|Refused\(u8\)"))
show(1, "a flag or a number with a value beside it, as an answer", places(r"^pub struct (?:Opened|Sectioned|Reading|RowRead|TwoCalls)\b"))
show(1, "numbers for kinds", places(r"^ *(?:pub )?(?:opl_voice|command|kind|function): u\w+"))
show(2, "twins by a type", named(["u16_at", "u32_at", "u64_at", "u16_bytes", "u32_bytes", "u64_bytes", "wide", "wide32", "wide_at", "single_of", "double_of", "single_bits", "double_bits", "lesser", "greater"]))
show(2, "twins by a size", named([r"\w+_room", "counters", "blank", "bytes_at", "put_block"]))
show(2, "twins by a field or a constant", named(["with_speed", "with_tempo", "with_order", "with_loop", "with_delay", "with_row", "store_and_restore", "restore_and_store", "store_tile", "restore_tile", "store", "restore"]))
show(3, "loops that count by hand", places(r"^ *while .*"))
show(4, "equality, order, copying, conversion and printing by hand", named(
    ["is_at", "or_before", "is_none", "one_less", "lower", "choose", "at_least_one", "flag_of", "signed_byte", "signed_of", "raised_by_128", "waveform_byte", "waveform_of",
     "present", "option_of", "is_taken", "is_set", "next_order", "clamp_pcm_volume", "load_peak", "copy_whole", "copy_within", "copy_row", "same_slot", "print", "print_text", "print_number",
     "print_refused", "print_first", "print_last", "print_name", "print_count", "rows_ended", "either", "with_info"]))
show(5, "places of a fact that three or more functions of a crate require", facts())
show(5, "functions with orders, cells and samples as parameters", groups(["orders", "cells", "samples"]))
show(5, "functions with the slots s0 to s4 as parameters", groups(["s0", "s4"]))
show(6, "buffers with a length beside them", groups(["keys", "n"]) + groups(["text", "n"]) + groups(["room", "at", "count"]) + places(r"^ *let mut (?:shown|rests) ="))
show(7, "functions with a flag that says which step to run", groups(["storing"]) + groups(["levels"]) + groups(["up"]))
show(7, "tables of functions by number", named(["call", "print_name"]))
answers = glob.glob("crates/*/proofs/**/Answers.antt", recursive=True)
print(f"8  {len(answers):4}  files of answers, {sum(len(open(f).readlines()) for f in answers)} lines")
own = [(f, 0, w) for f in answers for w in re.findall(r"\b\w+(?:_known|_told|-own|-arg)-?[\d-]*\b", open(f).read()) if re.search(r"known-|told-|-own|-arg-", w)]
print(f"8  {len(own):4}  names of Rattle's own in answers")
