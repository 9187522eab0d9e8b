"""Tests of a CP/M program, a few lines each: for pytest, in the folder where `examples/make-disks` was run.

The program that serves is the one that the variable CPMHOST names, or `cpmhost`.
"""

import re

from cpmhost import Host, Timeout


def test_three_guesses():
    with Host(folder="examples/out") as host, host.open(drives=["guess.img"]) as session:
        session.expect("A>")
        session.type("GUESS\rAda\r50\r75\r63\r")
        session.expect("Right! You took 3 guesses.")


def test_what_is_no_number():
    with Host(folder="examples/out") as host, host.open(cpu="z80", drives=["guess.img"]) as session:
        session.type("GUESS\rAda\rwhat\r")
        session.expect(re.compile(r"A number, please: $"))


def test_each_guess_from_one_session():
    """One session is brought to its first question, and each guess has a fork of it."""
    with Host(folder="examples/out") as host, host.open(drives=["guess.img"]) as session:
        session.type("GUESS\rAda\r")
        session.expect("Your guess: ")
        answers = {}
        for guess in range(1, 101):
            with session.fork() as fork:
                fork.type(f"{guess}\r")
                answers[guess] = fork.expect(["Too low", "Right!", "Too high"])
    assert [list(answers.values()).count(answer) for answer in range(3)] == [62, 1, 37]


def test_a_text_that_never_comes():
    with Host(folder="examples/out") as host, host.open(drives=["guess.img"]) as session:
        try:
            session.expect("B>", steps=100_000)
        except Timeout:
            assert session.before == "\r\nA>" and session.waiting


if __name__ == "__main__":
    for name, test in list(globals().items()):
        if name.startswith("test_"):
            test()
            print(f"{name}: passed")
