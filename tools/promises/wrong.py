"""The error that every part of this program raises."""


class Wrong(Exception):
    """The source, the page or a name in them is not as this program reads it."""

    def __init__(self, place, message):
        super().__init__('%s: %s' % (place, message))
