"""What ends the work without a map: words that aren't of the form, and an input that is refused."""


class UsageFault(Exception):
    """The words of the command aren't of its form."""


class Refused(Exception):
    """No map is made of the input, for the reason that the text tells."""
