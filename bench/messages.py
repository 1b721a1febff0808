"""The messages, modules and policies of bench/run, always the same ones."""
from __future__ import annotations

# The declared type, the types of the rules, and the message.
Case = tuple[str, list[str], bytes]
# Its name, the sender, the receiver, the message and the type.
Rule = tuple[str, str, str, str, str]


def length(size: int) -> bytes:
    """Length octets."""
    if size < 128:
        return bytes([size])
    digits = size.to_bytes((size.bit_length() + 7) // 8, "big")
    return bytes([0x80 | len(digits)]) + digits


def element(tag: int, contents: bytes) -> bytes:
    """An element with these identifier octets, one or two of them."""
    identifier = bytes([tag]) if tag & 31 != 31 else bytes([tag & 0xE0 | 31, tag >> 8])
    return identifier + length(len(contents)) + contents


def number(n: int) -> bytes:
    return n.to_bytes((n + (n < 0)).bit_length() // 8 + 1, "big", signed=True)


def numbers(many: int, below: int) -> list[int]:
    """Numbers of a linear congruential generator, so that every run has the same."""
    n, found = 12345, []
    for _ in range(many):
        n = (1103515245 * n + 12345) % 2**31
        found.append((n >> 8) % below)
    return found


def order(lines: list[int], id: int = 5, quantity: int | None = None) -> bytes:
    written = element(0x82, number(quantity)) if quantity else b""
    listed = element(0xA4, b"".join(element(2, number(n)) for n in lines))
    return element(0x30, element(0x80, number(id)) + element(0x81, number(1)) + written + listed)


def nest() -> bytes:
    values = iter(numbers(512, 101))

    def level(deep: int) -> bytes:
        if deep == 1:
            return element(0x30, b"".join(element(2, number(next(values))) for _ in range(8)))
        return element(0x30, b"".join(level(deep - 1) for _ in range(2 if deep > 24 else 1)))

    return level(30)


def a_set(values: list[int]) -> bytes:
    parts = [(0x80 | tag if tag < 31 else 0x9F | tag << 8, n) for tag, n in enumerate(values)]
    return element(0x31, b"".join(element(tag, number(n)) for tag, n in parts))


def characters() -> bytes:
    return ("Grüße, 日本 " * 62_500).encode()[:1_000_000].decode(errors="ignore").encode()


CASES: dict[str, Case] = {
    "order": ("Order", ["Small"], order([7])),
    "bulk": ("Order", ["Bulk"], order(numbers(10_000, 32_768))),
    "nest": ("N30", ["N30"], nest()),
    "text": ("Text", ["Digits"], element(0x16, bytes(0x30 + n for n in numbers(1_000_000, 10)))),
    "utf8": ("Chars", ["Chars"], element(0x0C, characters())),
    "set": ("Sets", ["Sets"], element(0x30, b"".join(a_set(numbers(64, 101)) for _ in range(156)))),
    "set-of": ("Bag", ["Bag"], element(0x31, b"".join(sorted(element(2, number(n)) for n in numbers(10_000, 30_000))))),
}


def module() -> str:
    """The module of CASES."""
    nested = "\n".join(f"N{n} ::= SEQUENCE OF N{n - 1}" for n in range(2, 31))
    parts = ", ".join(f"c{n} [{n}] INTEGER (0..100)" for n in range(64))
    return f"""Bench DEFINITIONS IMPLICIT TAGS ::= BEGIN
Order ::= SEQUENCE {{
  id [0] INTEGER (0..99999),
  kind [1] ENUMERATED {{buy, sell}},
  qty [2] INTEGER DEFAULT 1,
  note [3] UTF8String (SIZE (0..20)) OPTIONAL,
  lines [4] SEQUENCE OF INTEGER }}
Small ::= Order (WITH COMPONENTS {{..., qty (1..10)}})
Bulk ::= Order (WITH COMPONENTS {{..., qty (1..10), lines (WITH COMPONENT (0..32767))}})
Text ::= IA5String
Digits ::= Text (FROM ("0".."9"))
Chars ::= UTF8String
Sets ::= SEQUENCE OF SET {{{parts}}}
Bag ::= SET OF INTEGER
Free ::= SEQUENCE {{id [0] INTEGER, qty [1] INTEGER}}
N1 ::= SEQUENCE OF INTEGER (0..100)
{nested}
END
"""


# ---- the same set written in two ways

SIZES = 30_000
HEXADECIMAL = bytes(b"0123456789ABCDEF"[n] for n in numbers(1_000_000, 16))
TEXT = element(0x16, HEXADECIMAL)
TEXT_WRONG_AT_ITS_END = element(0x16, HEXADECIMAL[:-1] + b"x")
ALPHABETS = {
    "text, ranges": ("Text", ["Ranges"], TEXT),
    "text, a string": ("Text", ["Letters"], TEXT),
}
LENGTHS = {
    "7 octets, one range": ("Octets", ["OneRange"], element(4, bytes(7))),
    "7 octets, 30,000 sizes": ("Octets", ["Sizes"], element(4, bytes(7))),
    "59,999 octets, one range": ("Octets", ["OneRange"], element(4, bytes(2 * SIZES - 1))),
    "59,999 octets, 30,000 sizes": ("Octets", ["Sizes"], element(4, bytes(2 * SIZES - 1))),
}


def alphabets_module() -> str:
    return """Bench DEFINITIONS AUTOMATIC TAGS ::= BEGIN
Text ::= IA5String
Ranges ::= Text (FROM ("0".."9" | "A".."F"))
Letters ::= Text (FROM ("0123456789ABCDEF"))
END
"""


def lengths_module() -> str:
    sizes = " | ".join(str(2 * n + 1) for n in range(SIZES))
    return f"""Bench DEFINITIONS AUTOMATIC TAGS ::= BEGIN
Octets ::= OCTET STRING
OneRange ::= Octets (SIZE (1..{2 * SIZES - 1}))
Sizes ::= Octets (SIZE ({sizes}))
END
"""


def name_of(what: str) -> str:
    return "".join(letter if letter.isalnum() else "-" for letter in what)


def policy(files: list[str], messages: list[tuple[str, str]], rules: list[Rule]) -> str:
    """A policy; each message is (name, type), each rule (name, sender, receiver, message, type)."""
    lines = ["modules = [" + ", ".join(f'"{name}"' for name in files) + "]"]
    for name, ty in messages:
        lines.append(f'[[message]]\nname = "{name}"\nmodule = "Bench"\ntype = "{ty}"')
    for name, sender, receiver, message, ty in rules:
        lines.append(f'[[rule]]\nname = "{name}"\neffect = "allow"\nfrom = "{sender}"\nto = "{receiver}"')
        lines.append(f'message = "{message}"\nmodule = "Bench"\ntype = "{ty}"')
    return "\n".join(lines) + "\n"


def policy_of(file: str, cases: dict[str, Case]) -> str:
    """One message for each case, and the rules of each from north to south."""
    named = {name_of(what): case for what, case in cases.items()}
    messages = [(name, declared) for name, (declared, _, _) in named.items()]
    rules = [(f"{name}-{ty}", "north", "south", name, ty) for name, (_, types, _) in named.items() for ty in types]
    return policy([file], messages, rules)


def frame(message: str, contents: bytes, sender: str = "north", receiver: str = "south") -> bytes:
    body = b"".join(bytes([len(n)]) + n.encode() for n in (sender, receiver, message)) + contents
    return len(body).to_bytes(4, "big") + body
