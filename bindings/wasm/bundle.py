"""Makes one text of some CommonJS files, for a place where nothing can be required: a browser's module, or a page."""

import pathlib
import re

HEAD = """\
const required = (() => {
  const files = {
"""
FOOT = """\
  };
  const made = {};
  return function required(name) {
    if (!made[name]) {
      made[name] = { exports: {} };
      files[name](made[name], required);
    }
    return made[name].exports;
  };
})();
"""


def bundle(paths):
    """A function `required` that gives what one of the files exports, by its name from where they are said to lie: `./told.js`."""
    parts = []
    for path in map(pathlib.Path, paths):
        text = re.sub(r"^'use strict';\n", "", path.read_text(encoding="utf-8"))
        parts.append(f"    './{path.name}': (module, require) => {{\n{text}    }},\n")
    return HEAD + "".join(parts) + FOOT
