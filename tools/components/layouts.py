"""Core modules and components of as many bytes as are asked for, for tools that measure."""
from fields import COMPONENT, MODULE, leb


def number(value):
    return leb(value, False, 0)


def framed(front, body):
    return front + number(len(body)) + body


def section_of(id_, rows):
    return framed(bytes([id_]), number(len(rows)) + b"".join(rows))


def name(text):
    return number(len(text)) + text.encode()


def declaration(k):
    """A function's type, of two parameters."""
    return b"\x40\2" + name(f"p{k % 97}") + b"\x79" + name("q") + number(k % 60) + b"\0\x73"


def type_rows(length):
    rows, size = [], 0
    while size < length:
        rows.append(declaration(len(rows)))
        size += len(rows[-1])
    return rows


def scoped(groups):
    """An instance type with the first of these rows, and in it one with the second, and so on."""
    row = b""
    for rows in reversed(groups):
        rows = [b"\1" + each for each in rows] + ([b"\1" + row] if row else [])
        row = b"\x42" + number(len(rows)) + b"".join(rows)
    return row


def body(k, times=10):
    operators = b"\x20" + number(k % 7) + b"\x41" + leb(k % 5000, True, 0) + b"\x6a\x10" + number(k % 90) + b"\x1a\x28\2" + number(k % 400) + b"\x1a"
    return framed(b"", b"\1\7\x7f" + operators * times + b"\x0b")


def of_bodies(bodies, front=b"", behind=b""):
    """A core module of these bodies, with sections before and behind that of the functions."""
    return MODULE + framed(b"\1", b"\1\x60\0\0") + front + section_of(3, [b"\0"] * len(bodies)) + behind + section_of(10, bodies)


def module(length):
    """A core module with a memory whose bodies are of so many bytes."""
    bodies, size = [], 0
    while size < length:
        bodies.append(body(len(bodies)))
        size += len(bodies[-1])
    return of_bodies(bodies, behind=framed(b"\5", b"\1\0\1"))


def in_components(depth, section):
    for _ in range(depth):
        section = framed(b"\4", COMPONENT + section)
    return COMPONENT + section


def aliases(k, count):
    return section_of(6, [b"\0\0\1" + number((k + i) % 300) + name(f"f{i % 1000}") for i in range(count)])
