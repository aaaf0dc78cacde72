#!/usr/bin/env python3
"""usage: modules_here.py TOPOLOGY

Prints the first module of TOPOLOGY that isn't in the folder where one stands, where blazes reads them,
and on a second line what to do about it. It calls no program.

Exit status: 0 where there is such a module, 1 where all are there, or it can't be told.
"""
import glob
import os
import sys


def modules_of(topology):
    """The modules that a topology names, in the order of its components; none where that can't be read."""
    import tomllib

    try:
        with open(topology, "rb") as file:
            components = tomllib.load(file).get("component", [])
        return [it["module"] for it in components if isinstance(it.get("module"), str)]
    except (AttributeError, OSError, TypeError, ValueError):
        return []


def missing(topology):
    """The first module of a topology that isn't here, or nothing."""
    return next((name for name in modules_of(topology) if not os.path.exists(name)), None)


def folder_of(name, topology):
    """A folder that has the module: that of the topology, else one that lies here."""
    beside = os.path.dirname(topology)
    if os.path.isfile(os.path.join(beside, name)):
        return beside
    return next((it for it in sorted(glob.glob("*/")) if os.path.isfile(os.path.join(it, name))), None)


def advice(topologies):
    """What to do about the first module that isn't here, as one line or none."""
    for topology in topologies:
        if name := missing(topology):
            if folder := folder_of(name, topology):
                return [f"modules are read in the folder where you stand: stand in {folder.rstrip('/')}/, which has {name}"]
            return [f"modules are read in the folder where you stand, and there is no {name}"]
    return []


def main():
    if len(sys.argv) != 2 or not (name := missing(sys.argv[1])):
        return 1
    print(name)
    print(*advice(sys.argv[1:]), sep="\n")
    return 0


if __name__ == "__main__":
    sys.exit(main())
