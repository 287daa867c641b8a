#!/usr/bin/env python3
"""Runs a script from standard input and prints a line for each reply: the model beside which the program is run.

Usage: tests/schedules/model.py [--l0 N] [--base N] < SCRIPT"""
import argparse
import sys

sys.dont_write_bytecode = True
from store.limits import Limits
from store.lines import line
from store.script import ScriptFault, events_of
from store.world import World


def lines_of(script, limits):
    """The reply lines of a script, which is bytes. A faulty one has none, and raises ScriptFault."""
    world, events = World(limits), events_of(script)
    return "".join(line(world.step(it)) + "\n" for it in events)


def read_arguments():
    arguments = argparse.ArgumentParser(description=__doc__.splitlines()[0])
    arguments.add_argument("--l0", type=int, default=Limits().l0)
    arguments.add_argument("--base", type=int, default=Limits().base)
    return arguments.parse_args()


def main():
    given = read_arguments()
    try:
        sys.stdout.write(lines_of(sys.stdin.buffer.read(), Limits(given.l0, given.base)))
    except ScriptFault as it:
        print(it, file=sys.stderr)
        return 2
    return 0


if __name__ == "__main__":
    sys.exit(main())
