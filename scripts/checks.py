"""What a check says of each thing that it looks at."""


class Checks:
    """What was right, and what wasn't: a line each."""

    def __init__(self):
        self.failed = False

    def same(self, what, got, wanted):
        self.right(what, got == wanted, f"{got!r:.400}; wanted {wanted!r:.400}")

    def right(self, what, holds, otherwise=""):
        if not holds:
            print(f"FAILED: {what}{': ' if otherwise else ''}{str(otherwise):.900}", flush=True)
        else:
            self.passed(what)
        self.failed = self.failed or not holds

    def passed(self, what):
        print(f"ok: {what}", flush=True)


class Failures(Checks):
    """Only what wasn't right."""

    def passed(self, what):
        pass
