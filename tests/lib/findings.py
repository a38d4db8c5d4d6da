"""What a script looks at that goes on after what is wrong."""


class Findings:
    def __init__(self):
        self.tried, self.wrong = 0, []

    def look(self, what: str, holds) -> None:
        """Notes this as wrong unless it holds."""
        self.tried += 1
        if not holds:
            self.wrong.append(what)
