"""How a call is refused, for `second-reading` and the modules beside it."""

STATUS = {
    "refused": 1,
    "syntax": 2,
    "starts": 3,
    "ready": 3,
    "usage": 4,
    "read": 5,
    "write": 6,
    "long": 7,
    "budget": 8,
    "disagree": 9,
    "unfinished": 10,
    "rejected": 12,
}


class Stop(Exception):
    """A refusal: its status and its line."""

    def __init__(self, kind, line):
        super().__init__(line)
        self.status = STATUS[kind]
        self.line = line
