#!/usr/bin/env python3
"""A host program: runs the script of a file, or of standard input, on a new card.

usage: example.py [SCRIPT]

Standard output has what the script wrote and nothing else; why it stopped is told on standard error.
Exit status: 0 every line was run, 1 a line was refused, 2 the script could not be read or its output not written.
"""
import sys

import card

RAN, REFUSED, FAILED = 0, 1, 2


def read_script(path):
    """Name and bytes; one byte more than fits tells that the script is too long."""
    if path is None:
        return "<stdin>", sys.stdin.buffer.read(card.MAX_SCRIPT + 1)
    with open(path, "rb") as file:
        return path, file.read(card.MAX_SCRIPT + 1)


def refusal(name, run):
    place = name if run.refused is None else "%s:%d" % (name, run.refused)
    return "%s: refused with code %d: %s" % (place, run.code, run.code.cause)


def main(arguments):
    if len(arguments) > 1:
        print(__doc__.split("\n")[2], file=sys.stderr)
        return FAILED
    try:
        name, script = read_script(arguments[0] if arguments else None)
        run = card.run(script)
        sys.stdout.buffer.write(run.output)
        sys.stdout.buffer.flush()
    except OSError as error:
        print(error, file=sys.stderr)
        return FAILED
    if run.code == card.Code.DONE:
        return RAN
    print(refusal(name, run), file=sys.stderr)
    return REFUSED


if __name__ == "__main__":
    sys.exit(main(sys.argv[1:]))
