#!/usr/bin/env python3
"""Prints the text of the generated network of a number, by the tables of docs/network-file.md ("Generated networks") alone.

usage: tools/generate.py NUMBER     the text of the network of a number from 0 to 9999
       tools/generate.py --digest   the SHA-256 of the texts of all numbers, one behind another

The crate generated_nets makes the same texts by code of its own; a test compares them with the digest
(crates/file_tests/src/generated_networks.rt).
"""
import hashlib
import sys

MOST_NUMBER = 9999


def spelled(value):
    """A value as the files spell it: a number, a text, an array, or a table in one line."""
    if isinstance(value, dict):
        return "{ " + ", ".join(f"{key} = {spelled(item)}" for key, item in value.items()) + " }"
    if isinstance(value, list):
        return "[" + ", ".join(spelled(item) for item in value) + "]"
    return f'"{value}"' if isinstance(value, str) else str(value)


def table(header, keys):
    """The lines of a table: its header, and one for each key."""
    return [header] + [f"{key} = {spelled(value)}" for key, value in keys.items()]


def link(name, cells, **further):
    """The lines of a link."""
    return table("[[link]]", {"name": name, "cells": cells, "cap": 10, "store": 40, "wave": [1, 3], **further})


def phase(name, least, most, following):
    """The lines of a phase."""
    return table("[[signal.phase]]", {"name": name, "min": least, "max": most, "clear": 2, "next": [following]})


def generated(number):
    """The text of the network of a number."""
    junctions = 2 + number % 3
    steps = 30 + number % 11

    def demand(rate):
        return [{"from": 0, "until": steps - 10, "rate": rate}]

    def main_link(at):
        if at == junctions:
            return link(f"m{at}", 2)
        turns = [{"link": f"m{at + 1}", "parcel": 2 + (number + at) % 3}, {"link": f"o{at}", "parcel": 1}]
        entry = {"demand": demand(5 + number % 4)} if at == 0 else {}
        return link(f"m{at}", 3, turns=turns, signal=f"k{at}", greens=["main"], **entry)

    lines = ["format = 1", f"steps = {steps}"] + main_link(0)
    for at in range(junctions):
        lines += link(f"s{at}", 2, to=f"m{at + 1}", signal=f"k{at}", greens=["side"], demand=demand(2 + (number + 2 * at) % 4))
        lines += link(f"o{at}", 1)
        lines += main_link(at + 1)
    for at in range(junctions):
        lines += table("[[signal]]", {"name": f"k{at}"}) + phase("main", 4, 12, "side") + phase("side", 3, 8, "main")
    return "".join(line + "\n" for line in lines)


def digest():
    """The SHA-256 of the texts of all numbers, one behind another."""
    texts = hashlib.sha256()
    for number in range(MOST_NUMBER + 1):
        texts.update(generated(number).encode())
    return texts.hexdigest()


def main(words):
    if words == ["--digest"]:
        print(digest())
        return 0
    if len(words) != 1 or not words[0].isdecimal() or int(words[0]) > MOST_NUMBER:
        print(__doc__, file=sys.stderr)
        return 2
    sys.stdout.write(generated(int(words[0])))
    return 0


if __name__ == "__main__":
    sys.exit(main(sys.argv[1:]))
