"""A refusal: the line on the standard error and the exit status (FORMATS, Refusals)."""


class Refusal(Exception):
    """The program stops with this line and this status, and prints no report."""

    def __init__(self, status, *fields):
        self.status = status
        self.line = ",".join(["fault"] + [str(field) for field in fields])
        Exception.__init__(self, self.line)
