"""What the translator does not know, it refuses."""


class Refused(Exception):
    pass


def need(holds, message, *values):
    if not holds:
        raise Refused(message % values if values else message)
