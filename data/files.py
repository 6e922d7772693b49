"""Writes files beside this one, or, with --check among the words, only says which are not as they would be written."""
import os
import sys

HERE = os.path.dirname(os.path.abspath(__file__))


def settle(files, by):
    """The files by name, each with its octets; `by` is who writes them. Gives the exit status."""
    bad = 0
    for name, octets in files.items():
        path = os.path.join(HERE, name)
        if "--check" not in sys.argv:
            os.makedirs(os.path.dirname(path), exist_ok=True)
            with open(path, "wb") as f:
                f.write(octets)
            print(f"{name}: {len(octets)} octets")
        elif not os.path.exists(path) or open(path, "rb").read() != octets:
            print(f"{name} is not what {by} writes")
            bad = 1
    return bad
