"""Logs of stores, written as the program writes them, for the benchmarks."""
import hashlib

INSERT, UPDATE = 0, 1


def number(value, size=8):
    return value.to_bytes(size, "big")


def text(value):
    return number(len(value), 4) + value


def change(table, operation, *columns):
    return bytes([table, operation]) + b"".join(columns)


def record(payload):
    """A record behind an open gate."""
    return b"\x01" + number(len(payload)) + payload


def entry(n):
    """The changes that add message n to mailbox 1, with a body of its own."""
    body = b"Body %d: %s\r\n" % (n, b"x" * 60)
    return b"".join([
        change(3, INSERT, number(n), number(len(body) + 2)),
        change(8, INSERT, number(n), hashlib.sha256(body).digest(), text(body)),
        change(9, INSERT, number(n), text(b""), b"\x00", number(n)),
        change(4, INSERT, number(1, 4), number(n, 4), number(n), number(n + 1), number(1057049557), number(0, 2)),
    ])


def log_of(messages):
    """The log of a store whose user `a`, with the password `pw`, has so many messages in INBOX."""
    owner = change(1, INSERT, number(1, 4), text(b"a"), hashlib.sha256(b"a\0pw").digest())
    mailbox = change(2, INSERT, number(1, 4), number(1, 4), text(b"INBOX"), number(messages + 1, 4), number(1, 4), number(messages + 1))
    records = [record(owner + mailbox + change(18, UPDATE, number(2, 4)))] + [record(entry(n)) for n in range(1, messages + 1)]
    return b"\x01MAILROW\x00" + number(1) + b"".join(records) + b"\x00"
