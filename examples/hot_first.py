#!/usr/bin/env python3
"""Prints an order for `./reencode renumber` by which the functions come first where most time went.

    python3 examples/hot_first.py MODULE PROFILE > order.json

PROFILE is what `node --cpu-prof` writes of a run with this one module. It tells a function by the place of its body.
"""
import collections
import json
import sys


def number(data, at):
    """The number that stands at a place, and the place behind it."""
    value = shift = 0
    while data[at] > 127:
        value |= (data[at] & 127) << shift
        at, shift = at + 1, shift + 7
    return value | data[at] << shift, at + 1


def bodies(data):
    """The places of the bodies in the code section."""
    at = 8
    while at < len(data):
        kind = data[at]
        size, at = number(data, at + 1)
        if kind == 10:
            break
        at += size
    else:
        return
    count, at = number(data, at)
    for _ in range(count):
        size, at = number(data, at)
        yield at
        at += size


def main():
    if len(sys.argv) != 3:
        sys.exit(__doc__.strip())
    with open(sys.argv[1], "rb") as source:
        places = list(bodies(source.read()))
    with open(sys.argv[2], encoding="utf-8") as source:
        profile = json.load(source)
    time = collections.Counter()
    for node in profile["nodes"]:
        if node["callFrame"]["url"].startswith("wasm://"):
            time[node["callFrame"]["columnNumber"]] += node.get("hitCount", 0)
    order = [0] * len(places)
    for new, old in enumerate(sorted(range(len(places)), key=lambda function: -time[places[function]])):
        order[old] = new
    print(json.dumps(order))


if __name__ == "__main__":
    main()
