"""Archives that are the same byte for byte wherever they are made: names in order, one time, one owner, no path of this machine."""

import dataclasses
import gzip
import io
import os
import pathlib
import tarfile

PLAIN, PROGRAM = 0o644, 0o755


@dataclasses.dataclass(frozen=True)
class Held:
    """What stands under a name in an archive: bytes of a file, which may be a program, or the target of a link."""

    content: bytes = b""
    mode: int = PLAIN
    link: str = ""


def text(content):
    return Held(content.encode("utf-8"))


def program(content):
    return Held(content, PROGRAM)


def link(target):
    return Held(link=target)


def below(prefix, tree):
    """The same tree, one folder down."""
    return {f"{prefix}/{name}": held for name, held in tree.items()}


def folder(place, prefix, keep=lambda path: True):
    """A tree of the files below a folder, under a prefix; what Python and builds leave there is not among them."""
    left_out = ("__pycache__", "node_modules")
    paths = (path for path in sorted(pathlib.Path(place).rglob("*")) if path.is_file() and not set(left_out) & set(path.parts))
    return {f"{prefix}/{path.relative_to(place).as_posix()}": Held(path.read_bytes()) for path in paths if keep(path)}


def folders_of(names):
    """The folders that hold these names, each before what it holds."""
    found = {parent.as_posix() for name in names for parent in pathlib.PurePosixPath(name).parents}
    return sorted(found - {"."})


def tar_gz(tree, when):
    """The bytes of a compressed tape archive of a tree, its times a number of seconds."""
    held = io.BytesIO()
    with tarfile.open(fileobj=held, mode="w", format=tarfile.PAX_FORMAT) as archive:
        for name in sorted({*tree, *folders_of(tree)}):
            add_to_tar(archive, name, tree.get(name), when)
    return gzip.compress(held.getvalue(), compresslevel=9, mtime=0)


def add_to_tar(archive, name, held, when):
    """Adds one entry; a folder where nothing is held under the name."""
    entry = tarfile.TarInfo(name)
    entry.mtime, entry.uname, entry.gname = when, "root", "root"
    if held is None:
        entry.type, entry.mode = tarfile.DIRTYPE, PROGRAM
        archive.addfile(entry)
    elif held.link:
        entry.type, entry.linkname, entry.mode = tarfile.SYMTYPE, held.link, 0o777
        archive.addfile(entry)
    else:
        entry.size, entry.mode = len(held.content), held.mode
        archive.addfile(entry, io.BytesIO(held.content))


def write_tree(place, tree, when):
    """Writes a tree into a fresh folder, with its modes and one time for all."""
    place = pathlib.Path(place)
    for name, held in tree.items():
        path = place / name
        path.parent.mkdir(parents=True, exist_ok=True)
        if held.link:
            path.symlink_to(held.link)
        else:
            path.write_bytes(held.content)
            path.chmod(held.mode)
    for path in [*place.rglob("*"), place]:
        if path.is_dir() and not path.is_symlink():
            path.chmod(PROGRAM)
        os.utime(path, (when, when), follow_symlinks=False)
