#!/usr/bin/env python3
"""Writes a recording, which the program `recording` judges: a signal list, and a step for each time that data were marshalled.

    recorder.py FILE FORM LIST [CLOCK STORE BEFORE AFTER]..    makes one from files, a step for each four words
"""
import sys


def area(octets):
    return len(octets).to_bytes(4, "big") + octets


def start(file, form, signal_list):
    """Begins a recording in a file that is open for octets; form 1 or 2 is that of the list."""
    file.write(b"DUSTREC\x01" + bytes([form]) + area(signal_list))


def add_step(file, clock, store, before, after):
    """Adds a step: the data before and after marshalling, with the store and the clock that they were marshalled by."""
    file.write(clock.to_bytes(4, "big") + area(store) + area(before) + area(after))


def octets_of(path):
    with open(path, "rb") as file:
        return file.read()


def main():
    path, form, signal_list, *steps = sys.argv[1:]
    with open(path, "wb") as file:
        start(file, int(form), octets_of(signal_list))
        for clock, *paths in zip(*[iter(steps)] * 4):
            add_step(file, int(clock), *map(octets_of, paths))


if __name__ == "__main__":
    main()
