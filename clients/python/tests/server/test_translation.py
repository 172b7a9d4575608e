"""Lines and replies as clients and the program spell them are told by their bytes, all others by
what they say: both ways tell the same, of whatever is sent."""

from __future__ import annotations

import json
import random
import unittest
from typing import Any, List, Tuple, cast

from karzhoul.server.translation import BAD, Translation
from karzhoul.wire.lines import CALLS, OWN_CALLS

MADE = 120
NUMBERS = [*range(1, 45), 0, -1, "01", "1.0", "1e0", "-0", 999_999_999_999, 10**12, 2**63, 10**400]
TEXTS = ['"name"', '""', '"a b"', '"\\u0061"', '"\\ud800"', '"é"', '"\\""', '"},\\"em\\":2"']
NAMES = ["em", "e\\u006d", "object", "member", "objects", "name", "value", "key", "params", "first",
         "max", "text", "mode", "entity", "call", "ca\\u006cl", "serve", "hex"]


class Itself:
    """Numbers that stand for themselves."""

    def real(self, number: int, _: bool) -> int:
        """The same."""
        return number


def translation() -> Translation:
    """One whose numbers aren't the program's, some of which it has given."""
    made = Translation()
    for number in range(1, 41):
        made.objects.give(3 * number)
    for number in range(1, 9):
        made.managers.give(2 * number + 5)
    return made


def reading() -> Translation:
    """One that reads a line as the program does, whose numbers it leaves."""
    made, numbers = Translation(), cast(Any, Itself())
    made.objects = made.managers = numbers
    return made


class Chance(random.Random):
    """Lines and replies at random."""

    def value(self, depth: int = 0) -> str:
        """A value: mostly one that there is."""
        way = self.randrange(12 if depth < 3 else 6)
        if way < 3:
            return self.choice(TEXTS)
        if way < 6:
            return self.choice(["null", "true", *map(str, NUMBERS)])
        if way < 9:
            name = self.choice(["object", "hex", "objec\\u0074", "em"])
            return f'{{"{name}":{self.choice([*map(str, NUMBERS), *TEXTS])}}}'
        each = [self.value(depth + 1) for _ in range(self.randrange(3))]
        if way < 11:
            return f"[{','.join(each)}]"
        return "{" + ",".join(f'"{self.choice(NAMES)}":{it}' for it in each) + "}"

    def member(self, name: str) -> str:
        """What stands for a member, or something else."""
        if self.random() < 0.1:
            return self.value()
        if name in ("em", "object", "member"):
            return str(self.choice(NUMBERS if self.random() < 0.2 else range(1, 45)))
        if name == "objects":
            return f"[{','.join(str(self.choice(range(1, 45))) for _ in range(self.randrange(4)))}]"
        if name == "key":
            return f"[{self.value(2)}]"
        if name == "params":
            return f'{{"a":{self.value(1)},"b":{self.value(2)}}}'
        return self.value(3) if name == "value" else self.choice(TEXTS[:3])

    def line(self) -> bytes:
        """A line of a client, which a few bytes or members may have been changed of."""
        word, members = self.choice([*CALLS.items(), *OWN_CALLS.items()])
        pairs = [("call", f'"{word}"'), *((name, self.member(name)) for name in members)]
        while self.random() < 0.25:
            way, at = self.randrange(3), self.randrange(len(pairs) + 1)
            if way == 0:
                name = self.choice(NAMES)
                pairs.insert(at, (name, self.member(name)))
            elif way == 1 and pairs:
                pairs.pop(at - 1)
            else:
                self.shuffle(pairs)
        blank = self.choice(["", "", "", " ", "\t"])
        text = f",{blank}".join(f'"{name}":{blank}{it}' for name, it in pairs)
        line = bytearray(f"{{{text}}}".encode())
        while self.random() < 0.15:
            line[self.randrange(len(line))] = self.choice(b'019"{}[],:x\\\xff\x00 ')
        return bytes(line)

    def reply(self, made: int) -> Tuple[str, bytes]:
        """A reply of the program, and the name of its call."""
        number = self.choice([3 * self.randrange(1, 41), made, made + 1, made + 2])
        other = self.choice([number, 3, made + 1])
        event, link = f'["PostLoad",{number}]', f'{{"object":{other}}}'
        text = json.dumps(self.choice(["", event, link, '],"ok":null}', '"', "é"]))
        events = self.choice(["", event, event, f'{event},["PrePersist",{other}]'])
        if self.random() < 0.1:
            said = f'{{"error":{{"name":"NotUnique","no":13}},"events":[{events}]}}'
            return "commit", said.encode()
        if self.random() < 0.1:
            return "pending", f'{{"events":[],"ok":[{events}]}}'.encode()
        answer = self.choice(["null", link, f"[{link},{text}]", text, f'[{{"values":[{link}]}}]'])
        return "find", f'{{"events":[{events}],"ok":{answer}}}'.encode()


class BothWays(unittest.TestCase):
    def test_a_line_says_the_same_to_the_program(self) -> None:
        chance, program = Chance(11), reading()
        quick, slow = translation(), translation()
        told: List[int] = [0, 0]
        for _ in range(20_000):
            line = chance.line()
            call, wanted = quick.call(line, True), slow._read(line, True)
            self.assertEqual(program._read(call.line, True).line, wanted.line, line)
            if wanted != BAD:
                self.assertEqual((call.word, call.em), (wanted.word, wanted.em), line)
            told[wanted == BAD] += 1
        self.assertGreater(min(told), 4_000)

    def test_a_reply_says_the_same_to_the_connection(self) -> None:
        chance = Chance(12)
        quick, slow, made = translation(), translation(), MADE
        for _ in range(20_000):
            word, reply = chance.reply(made)
            wanted = slow._reply(word, reply, made)
            self.assertEqual(quick.reply(word, reply, made), wanted, reply)
            made = wanted[1]
        self.assertEqual(quick.objects._real, slow.objects._real)
        self.assertGreater(made, MADE + 4_000)
