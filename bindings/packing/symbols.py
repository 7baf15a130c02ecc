"""What a program or a shared library for Linux asks of the system: read from its ELF file, with no tool."""

import struct

DYNAMIC_SYMBOLS, DYNAMIC, NEEDED_VERSIONS = 11, 6, 0x6FFFFFFE
NEEDED_LIBRARY = 1
UNDEFINED, FIRST_SPECIAL_SECTION = 0, 0xFF00
GLOBAL_OR_WEAK = (1, 2)

# The libraries that are parts of glibc.
GLIBC = {f"lib{name}" for name in ("c.so.6", "m.so.6", "pthread.so.0", "dl.so.2", "rt.so.1")} | {"ld-linux-x86-64.so.2"}

# The ages of glibc that tags of wheels know, with the older name of a tag where it has one (PEP 600).
AGES = [((2, 5), "manylinux1"), ((2, 12), "manylinux2010"), ((2, 17), "manylinux2014")]
LATER_AGES = [(2, 24), (2, 27), (2, 28), (2, 31), (2, 34), (2, 35), (2, 36), (2, 38), (2, 39)]


class Sections:
    """The sections of an ELF file of 64 bits, little end first."""

    def __init__(self, content):
        if content[:6] != b"\x7fELF\x02\x01":
            raise ValueError("no ELF file of 64 bits, little end first")
        self.content = content
        (at,) = struct.unpack_from("<Q", content, 40)
        size, count = struct.unpack_from("<HH", content, 58)
        self.heads = [struct.unpack_from("<IIQQQQIIQQ", content, at + size * number) for number in range(count)]

    def of_kind(self, kind):
        """The bytes of the section of a kind, with its table of names; empty where there is none."""
        for head in self.heads:
            if head[1] == kind:
                names = self.heads[head[6]]
                return self.bytes_of(head), self.bytes_of(names)
        return b"", b""

    def bytes_of(self, head):
        return self.content[head[4] : head[4] + head[5]]


def name_at(names, place):
    return names[place : names.index(b"\0", place)].decode("ascii")


def needed_libraries(content):
    """The names of the shared libraries that a file loads."""
    entries, names = Sections(content).of_kind(DYNAMIC)
    return [name_at(names, value) for tag, value in struct.iter_unpack("<QQ", entries) if tag == NEEDED_LIBRARY]


def needed_versions(content):
    """The versions of symbols that a file asks of other libraries, as `GLIBC_2.14`."""
    needs, names = Sections(content).of_kind(NEEDED_VERSIONS)
    found, at = set(), 0
    while needs:
        _, count, _, auxiliary, after = struct.unpack_from("<HHIII", needs, at)
        one = at + auxiliary
        for _ in range(count):
            _, _, _, name, step = struct.unpack_from("<IHHII", needs, one)
            found.add(name_at(names, name))
            one += step
        if after == 0:
            break
        at += after
    return found


def exported(content):
    """The names that a shared library offers, in order."""
    entries, names = Sections(content).of_kind(DYNAMIC_SYMBOLS)
    symbols = struct.iter_unpack("<IBBHQQ", entries)
    defined = (it for it in symbols if UNDEFINED < it[3] < FIRST_SPECIAL_SECTION and it[1] >> 4 in GLOBAL_OR_WEAK)
    return sorted(name_at(names, it[0]) for it in defined)


def glibc_age(*contents, beside=()):
    """The oldest glibc with all that these files ask for, as (2, 14). Raises ValueError where one asks for another library, those of the names
    `beside` aside, which lie with it."""
    ages = [(2, 2)]
    for content in contents:
        others = set(needed_libraries(content)) - GLIBC - set(beside)
        if others:
            raise ValueError(f"needs {', '.join(sorted(others))} beside glibc")
        for version in needed_versions(content):
            word, _, number = version.partition("_")
            if word != "GLIBC":
                raise ValueError(f"needs {version}, which is not of glibc")
            ages.append(tuple(int(part) for part in number.split("."))[:2])
    return max(ages)


def wheel_platform(age):
    """The tag of a wheel whose libraries ask for a glibc of an age: the oldest that tags know and that has all of it."""
    for known, old_name in AGES:
        if age <= known:
            return f"manylinux_{known[0]}_{known[1]}_x86_64.{old_name}_x86_64"
    known = next((known for known in LATER_AGES if age <= known), age)
    return f"manylinux_{known[0]}_{known[1]}_x86_64"
