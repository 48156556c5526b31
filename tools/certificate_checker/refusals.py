"""What ends a check before its verdict: an exit status and the line that says why."""


class Refusal(Exception):
    """The answer when something can't be taken; `status` and `line` are those of docs/REFUSALS.md."""

    def __init__(self, status, line):
        super().__init__(line)
        self.status = status
        self.line = line
