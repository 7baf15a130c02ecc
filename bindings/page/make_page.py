"""Makes the page of the playground and of the mock server: one file with all that it needs, the engine among it. bindings/build calls `page`."""

import base64
import gzip
import pathlib

from bundle import bundle

HERE = pathlib.Path(__file__).resolve().parent
# Each behind those that it requires.
SCRIPTS = ["dom", "lexer", "schema", "reader", "completion", "faults", "format", "address", "history", "paint", "popup", "editor", "docs"]
SCRIPTS += ["examples", "sample", "server", "workspace", "start", "main"]


def page(files, module):
    """The text of the page, over the package's files and the bytes of a module; without an engine where these are None."""
    packed = "" if module is None else base64.b64encode(gzip.compress(module, 9, mtime=0)).decode()
    scripts = bundle([*files, *(HERE / f"{name}.js" for name in SCRIPTS)])
    parts = {"style": (HERE / "style.css").read_text(encoding="utf-8"), "engine": packed, "script": scripts}
    text = (HERE / "page.html").read_text(encoding="utf-8")
    for name, part in parts.items():
        text = text.replace(f"{{{name}}}", part.replace("</script", "<\\/script"), 1)
    return text
