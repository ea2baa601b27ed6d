"""What ends a tool of the delivery with words and not with a trace."""
import sys


class Refused(Exception):
    pass


def need(held, words, *values):
    if not held:
        raise Refused(words % values)


def run(name, main):
    """main's status; a refusal is said, and is status 1."""
    try:
        sys.exit(main())
    except Refused as e:
        sys.exit('%s: %s' % (name, e))
