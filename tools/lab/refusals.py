"""What the lab refuses, each by a word and with what to do."""


class LabRefused(Exception):
    """A refusal: nothing was changed by what was asked."""

    def __init__(self, word: str, why: str) -> None:
        super().__init__(f"{word}: {why}")
        self.word, self.why = word, why


class WrongConfiguration(LabRefused):
    """What is wrong in lab.toml, or with what it names."""

    def __init__(self, why: str) -> None:
        super().__init__("WrongConfiguration", why)
