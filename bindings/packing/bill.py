"""The bill of materials (SPDX 2.3) and the licences of what others wrote: the toolchain's crates that stand in what is shipped."""

import dataclasses
import datetime
import json
import pathlib
import re
import shutil
import uuid

from .compiled import VERSION
from .crates import of_toolchain
from .left import Lacking, program_names

NOT_TOLD = "NOASSERTION"

# How the text of a licence begins, or what it says, by its name in SPDX.
LICENCES = {"Apache-2.0": "Apache License", "MIT": "Permission is hereby granted, free of charge"}


@dataclasses.dataclass
class Part:
    """A crate of the toolchain: the version of the Rust crate that it is a port of, and its licences with their texts."""

    name: str
    version: str
    texts: dict

    @property
    def licence(self):
        return " OR ".join(self.texts) or NOT_TOLD


def toolchain():
    """The folder of the toolchain's sources."""
    rt = shutil.which("rt")
    if rt is None:
        raise Lacking("the toolchain's command `rt` is not on the path, whose crates have the licences")
    return pathlib.Path(rt).resolve().parent.parent / "rattle"


def licences_in(folder):
    """The licences whose texts lie in a folder, by their name in SPDX."""
    texts = [path.read_text(encoding="utf-8") for path in sorted(folder.glob("LICENSE*"))]
    return {name: text for name, mark in LICENCES.items() for text in texts if mark in text[:2000]}


def part_of(name):
    """What the toolchain tells of one of its crates."""
    folder = toolchain() / name
    page = folder / "README.md"
    told = re.search(rf"`{name}`\s+(\d+\.\d+\.\d+)", page.read_text(encoding="utf-8")) if page.is_file() else None
    return Part(name, told[1] if told else "", licences_in(folder))


def parts():
    """The crates of the toolchain in the programs and the library, its standard library last."""
    shipped = [*program_names().values(), "gql_c"]
    return [*(part_of(name) for name in of_toolchain(shipped)), Part("std", "", {})]


def package(name, version, licence, comment):
    told = {"versionInfo": version} if version else {}
    return {
        "SPDXID": f"SPDXRef-{name}",
        "name": name,
        **told,
        "downloadLocation": NOT_TOLD,
        "filesAnalyzed": False,
        "licenseConcluded": licence,
        "licenseDeclared": licence,
        "copyrightText": NOT_TOLD,
        "comment": comment,
    }


def relation(one, kind, other):
    return {"spdxElementId": f"SPDXRef-{one}", "relationshipType": kind, "relatedSpdxElement": f"SPDXRef-{other}"}


def bill(left):
    """The text of the bill of materials."""
    found = parts()
    made = datetime.datetime.fromtimestamp(left.when, datetime.timezone.utc).strftime("%Y-%m-%dT%H:%M:%SZ")
    own = package("sunwaket", VERSION, "MIT", f"commit {left.commit}, built with {left.kit}")
    others = [package(part.name, part.version, part.licence, f"of {left.kit}") for part in found]
    document = {
        "spdxVersion": "SPDX-2.3",
        "dataLicense": "CC0-1.0",
        "SPDXID": "SPDXRef-DOCUMENT",
        "name": f"sunwaket-{VERSION}",
        "documentNamespace": uuid.uuid5(uuid.NAMESPACE_OID, f"sunwaket {VERSION} {left.commit}").urn,
        "creationInfo": {"created": made, "creators": ["Organization: Sunwaket maintainers", "Tool: bindings/release"]},
        "packages": [own, *others],
        "relationships": [relation("DOCUMENT", "DESCRIBES", "sunwaket"), *(relation("sunwaket", "CONTAINS", part.name) for part in found)],
    }
    return json.dumps(document, indent=2) + "\n"


def third_party_licences():
    """The licences of the toolchain's crates that stand in what is shipped, each text once with the crates that it is of."""
    names = {}
    for part in parts():
        for licence, text in part.texts.items():
            names.setdefault((licence, text.strip()), []).append(f"{part.name} {part.version}")
    told = (f"{licence}: {', '.join(crates)}\n\n{text}\n" for (licence, text), crates in names.items())
    head = "Crates of the toolchain that stand in the programs and the library, ports of Rust crates, with the licences that they came with.\n"
    return "\n\n".join([head, *told])
