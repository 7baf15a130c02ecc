"""The form of crates.txt: each crate stands in a group, and has few ways down to those below it; and what docs/ARCHITECTURE.md says of
how many they are."""
import functools
import re

from shared.sources import CRATE_LINE, ROOT, crates, stands_on

# `rt ci` reads the files below a library once for each way down to them by crates.txt.
MOST_WAYS = 100_000


def faults():
    yield from groups()
    yield from many_ways()
    yield from measures()


def groups():
    """Each crate stands in crates.txt, in a group: behind a comment, with no empty line between."""
    listed, in_group = [], False
    for line in (ROOT / "crates.txt").read_text().splitlines():
        found = CRATE_LINE.match(line)
        if found:
            listed.append(found.group(1))
            if not in_group:
                yield f"crates.txt: {found.group(1)} stands under no group's comment"
        elif line.startswith("#"):
            in_group = True
        else:
            in_group = False
    differing = sorted(set(listed) ^ {crate.name for crate in crates()})
    if differing:
        yield f"crates.txt and crates/ differ: {', '.join(differing)}"


def many_ways():
    """The crates with too many ways down to those below them."""
    lists, ways = stands_on(), {}

    def ways_of(crate):
        if crate not in ways:
            ways[crate] = 1 + sum(ways_of(other) for other in lists[crate] if other in lists)
        return ways[crate]

    for crate in lists:
        if ways_of(crate) > MOST_WAYS:
            yield f"crates.txt: {ways[crate]} ways lead down from {crate}, at most {MOST_WAYS}: name what it needs through fewer crates"


def measures():
    """The sentence on how many crates there are, how many lines lead from one to another, and how long the longest chain is."""
    lists = {crate: [other for other in others if other in stands_on()] for crate, others in stands_on().items()}

    @functools.cache
    def chain(crate):
        return 1 + max(map(chain, lists[crate]), default=0)

    wanted = f"{len(lists)} crates, {sum(map(len, lists.values()))} lines between them, and {max(map(chain, lists))} crates in the longest chain"
    text = " ".join((ROOT / "docs" / "ARCHITECTURE.md").read_text().split())
    if not re.search(re.escape(wanted), text):
        yield f"docs/ARCHITECTURE.md does not say: {wanted}"
