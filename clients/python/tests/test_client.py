"""The client against a host that replays the examples of docs/PROTOCOL.md. It runs by `python3 -m unittest` in clients/python, or by pytest."""

import asyncio
import json
import os
import re
import sys
import unittest

HERE = os.path.dirname(os.path.realpath(__file__))
sys.path.insert(0, os.path.dirname(HERE))

import cpmhost  # noqa: E402
from cpmhost import AsyncHost, Host  # noqa: E402

DOCUMENT = os.path.join(HERE, "..", "..", "..", "docs", "PROTOCOL.md")
EXAMPLE = re.compile(r"^```(?:json|text) (request|reply)(?: wrong)?\n(.*)\n```$", re.MULTILINE)


def examples():
    """The pairs of a request and its reply, in the order of the page."""
    with open(DOCUMENT, encoding="utf-8") as file:
        found = EXAMPLE.findall(file.read())
    return [(asked[1], reply[1]) for asked, reply in zip(found, found[1:]) if (asked[0], reply[0]) == ("request", "reply")]


def parsed(text):
    """A request without its tag, which this client doesn't use, and so that members have no order; a text that is no JSON stays one."""
    try:
        value = json.loads(text)
    except ValueError:
        return text.strip()
    value.pop("tag", None)
    return json.dumps(value, sort_keys=True)


class FakeHost:
    """Both streams of a host that knows these requests alone, each with the replies that it gives in turn, of which the last comes again."""

    def __init__(self, *more):
        self.known = {}
        for asked, reply in [*examples(), *more]:
            self.known.setdefault(parsed(asked), []).append(reply)
        self.replies = []
        self.asked = []

    def write(self, data):
        for line in data.decode().splitlines():
            self.asked.append(line)
            known = self.known.get(parsed(line))
            if known is None:
                raise AssertionError(f"no example asks {line}")
            self.told(((known.pop(0) if len(known) > 1 else known[0]) + "\n").encode())

    def told(self, reply):
        self.replies.append(reply)

    def flush(self):
        pass

    def readline(self):
        return self.replies.pop(0) if self.replies else b""

    def close(self):
        pass


class FakeStreams(FakeHost):
    """The same for asyncio."""

    def __init__(self, *more):
        super().__init__(*more)
        self.reader = asyncio.StreamReader()

    def told(self, reply):
        self.reader.feed_data(reply)

    async def drain(self):
        pass

    def close(self):
        self.reader.feed_eof()


def turn(keys, text, waiting=True, end="Running", executed=6, why="Waiting", slot=0, steps=1_000_000, accepted=None):
    """A request for a turn and its reply."""
    reply = {"accepted": len(keys) if accepted is None else accepted, "end": end, "executed": executed, "list": "", "text": text, "waiting": waiting, "why": why}
    return json.dumps({"do": "turn", "slot": slot, "keys": keys, "steps": steps}), json.dumps(reply)


def key(keys, accepted):
    return json.dumps({"do": "key", "slot": 0, "keys": keys}), json.dumps({"accepted": accepted})


OPENS = '{"do": "open", "cpu": "8080", "quota": 64, "drives": ["blank"]}', '{"slot":0}'


def with_session(*more):
    fake = FakeHost(OPENS, *more)
    host = Host(streams=(fake, fake))
    return fake, host, host.open()


class Examples(unittest.TestCase):
    """Each example of the page, by the call that asks it."""

    def setUp(self):
        self.fake = FakeHost()
        self.host = Host(streams=(self.fake, self.fake))
        self.session = self.host.open(quota=64, drives=["work.img", "blank"])

    def test_requests_of_a_session(self):
        session = self.session
        session.type("DIR\r")
        self.assertEqual(session.grant(10**6, to="wait"), cpmhost.Granted(1, "Waiting"))
        self.assertEqual(session.grant(5000, until=256), cpmhost.Granted(12, "Break"))
        self.assertEqual(session.take(), "\r\nA>")
        self.assertEqual(session.console, "\r\nA>")
        self.assertEqual(session.take_list(100), "")
        look = session.look()
        self.assertEqual((look.pc, look.sp, look.waiting, look.other_af, look.end), (58374, 60414, True, 0, "Running"))
        self.assertEqual(session.peek(5, 3), b"\xc3\x06\xec")
        self.assertEqual(session.fork().slot, 1)
        self.assertEqual(session.save("alice.saved"), 257334)
        done = session.turn("DIR\r", 20000)
        self.assertEqual((done.accepted, done.executed, done.text, done.waiting), (4, 6, "DIR\r\r\nNO FILE\r\nA>", True))
        self.assertEqual(session.console, "\r\nA>DIR\r\r\nNO FILE\r\nA>")

    def test_files(self):
        drive = self.host.files["work.img"]
        self.assertEqual(drive.put("HELLO.TXT", b"Hello\r\n"), 7)
        self.assertEqual((drive.names(), list(drive), "HELLO.TXT" in drive), (["HELLO.TXT"], ["HELLO.TXT"], True))
        with self.assertRaises(cpmhost.NoFile) as raised:
            drive["HELLO.TXT"]
        self.assertEqual((raised.exception.word, raised.exception.why), ("NoFile", "no such file"))

    def test_refusals(self):
        with self.assertRaises(cpmhost.OtherSystem):
            self.host.open(from_file="alice.saved")
        lost = cpmhost.Session(self.host, 7)
        with self.assertRaises(cpmhost.NoSuchSlot):
            lost.close(out=["after.img"])
        self.assertTrue(lost.is_open)

    def test_many(self):
        first, second, third = self.host.many([{"do": "key", "slot": 0, "keys": "X", "tag": 1}, {"do": "look"}, {"do": "fork", "slot": 9}])
        self.assertEqual(first, {"accepted": 1, "tag": 1})
        self.assertEqual((type(second), second.error, second.field), (cpmhost.WrongLine, "missing field", "slot"))
        self.assertIsInstance(third, cpmhost.NoSuchSlot)

    def test_wrong_lines(self):
        wrong = [(asked, json.loads(reply)) for asked, reply in examples() if "error" in json.loads(reply)]
        self.assertEqual(len(wrong), 5)
        for asked, reply in wrong:
            found = cpmhost.faults.fault_of(json.loads(self.host.send(asked.encode() + b"\n")))
            self.assertEqual((found.error, found.field, found.at), (reply["error"], reply.get("field"), reply.get("at")))

    def test_each_refusal_has_a_class(self):
        with open(DOCUMENT, encoding="utf-8") as file:
            table = file.read().split("\n## Refusals\n")[1].split("\n## ")[0]
        named = re.findall(r"^\| `(\w+)` \|", table, re.MULTILINE)
        self.assertEqual(sorted(set(named) - {"refused"}), sorted(cpmhost.faults.REFUSALS))


class Expecting(unittest.TestCase):
    def test_text_that_comes(self):
        _, _, session = with_session(key("DIR\r", 4), turn("", "\r\nA>"), turn("", "DIR\r\r\nNO FILE\r\nA>"))
        self.assertEqual(session.expect("A>"), 0)
        self.assertEqual((session.before, session.match, session.after), ("\r\n", "A>", "A>"))
        session.type("DIR\r")
        self.assertEqual(session.expect(["nothing", "A>", re.compile(r"NO (\w+)")]), 2)
        self.assertEqual((session.before, session.match.group(1), session.after), ("DIR\r\r\n", "FILE", "NO FILE"))
        self.assertEqual(session.expect("A>"), 0)
        self.assertEqual(session.before, "\r\n")
        self.assertEqual(session.console, "\r\nA>DIR\r\r\nNO FILE\r\nA>")

    def test_a_wait_without_it(self):
        _, _, session = with_session(turn("", "\r\nA>"), turn("", "", executed=0, steps=999_994))
        with self.assertRaises(cpmhost.Timeout):
            session.expect("B>")
        self.assertEqual((session.before, session.match), ("\r\nA>", None))

    def test_steps_that_are_used_up(self):
        used = [turn("", "x", executed=40, why="All", waiting=False, steps=steps) for steps in (100, 60, 20)]
        _, _, session = with_session(*used[:2], turn("", "y", executed=20, why="All", waiting=False, steps=20))
        with self.assertRaises(cpmhost.Timeout):
            session.expect("z", steps=100)
        self.assertEqual(session.before, "xxy")

    def test_the_end_of_a_session(self):
        _, _, session = with_session(turn("", "last words", waiting=False, end="Quota", why="Stopped"))
        with self.assertRaises(cpmhost.Ended):
            session.expect("A>")
        self.assertEqual((session.end, session.before), ("Quota", "last words"))

    def test_keys_without_room(self):
        fake, _, session = with_session(key("ABCD", 1), turn("BCD", "A"), turn("", "BCD", steps=999_994))
        session.type("ABCD")
        session.expect("D")
        self.assertEqual([json.loads(line).get("keys") for line in fake.asked[1:]], ["ABCD", "BCD", ""])

    def test_a_fork_has_shown_the_same(self):
        _, host, session = with_session(turn("", "\r\nA>"), turn("X", "X", slot=1, steps=5))
        session.expect("\r\n")
        other = session.fork()
        other.turn("X", 5)
        self.assertEqual((other.expect("A>X"), other.console, session.console), (0, "\r\nA>X", "\r\nA>"))


class Ends(unittest.TestCase):
    def test_a_host_that_has_gone(self):
        fake = FakeHost()
        host = Host(streams=(fake, fake))
        fake.write = lambda data: None
        with self.assertRaises(cpmhost.HostGone):
            host.open()

    def test_a_program_that_ends_at_once(self):
        with Host(program="/bin/false") as host:
            with self.assertRaises(cpmhost.HostGone):
                host.open()
                host.open()

    def test_a_reply_that_nobody_waited_for(self):
        fake, _, session = with_session(turn("A", "A", steps=9), turn("B", "B", steps=9))
        readline = fake.readline

        def interrupted():
            fake.readline = readline
            raise KeyboardInterrupt

        fake.readline = interrupted
        self.assertRaises(KeyboardInterrupt, session.turn, "A", 9)
        self.assertEqual(session.turn("B", 9).text, "B")

    def test_a_refusal_that_isnt_known(self):
        found = cpmhost.faults.fault_of({"refused": "Elsewhere", "why": "it is elsewhere"})
        self.assertEqual((found.word, found.why, isinstance(found, cpmhost.Refused)), ("Elsewhere", "it is elsewhere", True))

    def test_any_byte_is_a_key(self):
        every = bytes(range(256))
        self.assertEqual(cpmhost.bytes_of(cpmhost.text_of(every)), every)
        line = cpmhost.wire.line_of({"keys": cpmhost.text_of(every)})
        self.assertEqual(line.count(b"\n"), 1)
        self.assertEqual(cpmhost.bytes_of(json.loads(line)["keys"]), every)


class Lines(unittest.TestCase):
    """What has no line isn't sent, and changes nothing here."""

    def test_a_text_that_is_no_bytes(self):
        fake, _, session = with_session(key("DIR\r", 4), turn("", "A>", steps=20))
        for call in (session.type, session.turn):
            with self.assertRaises(cpmhost.BadText):
                call("DIR €\r")
        with self.assertRaises(cpmhost.BadText):
            session.save("\ud800")
        session.type("DIR\r")
        self.assertEqual(session.turn(steps=20).text, "A>")
        self.assertEqual(len(fake.asked), 3)

    def test_keys_of_a_refused_request(self):
        refusal = '{"refused":"OutOfMemory","why":"out of memory"}'
        _, _, session = with_session((key("A", 1)[0], refusal), key("B", 1), turn("", "B", steps=9))
        with self.assertRaises(cpmhost.OutOfMemory):
            session.type("A")
        session.type("B")
        self.assertEqual(session.turn(steps=9).text, "B")

    def test_the_shortest_line(self):
        two = b'\b\t\n\f\r"\\'
        for byte in range(256):
            length = len(cpmhost.wire.line_of({"text": cpmhost.text_of(bytes([byte]))})) - len(b'{"text":""}\n')
            self.assertEqual(length, 2 if byte in two or byte >= 0x80 else 6 if byte < 0x20 else 1, byte)

    def test_a_line_that_is_too_long(self):
        fake = FakeHost()
        drive = Host(streams=(fake, fake)).files["work.img"]
        with self.assertRaises(cpmhost.LineTooLong) as raised:
            drive.put("ZEROS.BIN", bytes(200_000))
        self.assertRegex(str(raised.exception), r"^the request 'put' has 1,200,060 bytes as a line, which has 1,048,576 at most: `cpmhost disk put`")
        self.assertEqual(fake.asked, [])
        self.assertEqual(len(cpmhost.wire.line_of({"text": "x" * ((1 << 20) - 11)})), (1 << 20) + 1)
        self.assertRaises(cpmhost.LineTooLong, cpmhost.wire.line_of, {"text": "x" * ((1 << 20) - 10)})

    def test_many_that_are_too_long_for_a_line(self):
        fake = FakeHost()
        fake.write = lambda data: fake.told(json.dumps({"replies": [{"bytes": len(it["text"])} for it in json.loads(data)["requests"]]}).encode() + b"\n")
        lengths = [400_000, 500_000, 300_000, 1_100_000, 7, 900_000]
        puts = [{"do": "put", "drive": "work.img", "name": "A", "text": "x" * length} for length in lengths]
        found = Host(streams=(fake, fake)).many(puts)
        self.assertIsInstance(found.pop(3), cpmhost.LineTooLong)
        self.assertEqual([it["bytes"] for it in found], [length for length in lengths if length != 1_100_000])
        self.assertEqual(Host(streams=(fake, fake)).many([]), [])


class DrivesOfSessions(unittest.TestCase):
    def with_files(self, *replies):
        """A session whose second drive is read, and the host that replies so to a line of a close and a `files`."""
        fake, host, session = with_session()
        copies = host._copies[:2]
        requests = [{"do": "close", "slot": 1, "out": copies}, {"do": "files", "drive": copies[1]}]
        fake.known[parsed(json.dumps({"do": "many", "requests": requests}))] = [json.dumps({"replies": list(replies)})]
        fake.known[parsed('{"do": "close", "slot": 1}')] = [examples_of("look")]
        return fake, session

    def test_files(self):
        fake, session = self.with_files(json.loads(examples_of("look")), {"text": "A.TXT\nB.TXT\n"})
        self.assertEqual(session.files["B"].names(), ["A.TXT", "B.TXT"])
        self.assertEqual([json.loads(line)["do"] for line in fake.asked], ["open", "fork", "many"])

    def test_copies_that_cant_be_written(self):
        fake, session = self.with_files({"refused": "FileFault", "why": "-"}, {"refused": "AbsentFile", "why": "-"})
        self.assertRaises(cpmhost.FileFault, session.files["B"].names)
        self.assertEqual(json.loads(fake.asked[-1]), {"do": "close", "slot": 1})

    def test_what_is_only_read(self):
        fake, session = self.with_files()
        with self.assertRaises(cpmhost.LiveDrive):
            session.files["A"]["X.TXT"] = "x"
        self.assertRaises(cpmhost.LiveDrive, session.files["A"].create)
        self.assertRaises(cpmhost.BadDrives, session.files["E"].names)
        self.assertEqual(len(fake.asked), 1)


class ByAsyncio(unittest.TestCase):
    def test_two_sessions_at_a_time(self):
        async def drive(session, keys):
            await session.type(keys)
            await session.expect("A>")
            return session.console

        async def main():
            second = '{"do": "open", "cpu": "z80", "quota": 64, "drives": ["blank"]}', '{"slot":1}'
            keys = json.dumps({"do": "key", "slot": 1, "keys": "X\r"}), '{"accepted":2}'
            closes = [(f'{{"do": "close", "slot": {slot}}}', examples_of("look")) for slot in (0, 1)]
            fake = FakeStreams(OPENS, second, key("DIR\r", 4), keys, turn("", "DIR\r\r\nA>"), turn("", "X\r\r\nA>", slot=1), *closes)
            async with AsyncHost(streams=(fake.reader, fake)) as host:
                async with await host.open() as one, await host.open(cpu="z80") as two:
                    return await asyncio.gather(drive(one, "DIR\r"), drive(two, "X\r"))

        self.assertEqual(asyncio.run(main()), ["DIR\r\r\nA>", "X\r\r\nA>"])

    def test_refusals_and_files(self):
        async def main():
            fake = FakeStreams()
            async with AsyncHost(streams=(fake.reader, fake)) as host:
                self.assertEqual(await host.files["work.img"].names(), ["HELLO.TXT"])
                with self.assertRaises(cpmhost.NoFile):
                    await host.files["work.img"].get("HELLO.TXT")
                with self.assertRaises(cpmhost.OtherSystem):
                    await host.open(from_file="alice.saved")

        asyncio.run(main())

    def test_a_program_that_ends_at_once(self):
        async def main():
            async with AsyncHost(program="/bin/false") as host:
                with self.assertRaises(cpmhost.HostGone):
                    await host.open()
                    await host.open()

        asyncio.run(main())


def examples_of(do):
    """The reply to the first example of a request."""
    return next(reply for asked, reply in examples() if f'"do": "{do}"' in asked)


if __name__ == "__main__":
    unittest.main()
