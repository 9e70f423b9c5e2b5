"""The files of the crates, for what counts and sets side by side in this folder."""

import os


def files(root, end, part):
    """(path from the root, text) of each file with that end below a crate's folder `part`, sorted"""
    for folder, dirs, names in os.walk(os.path.join(root, "crates")):
        dirs[:] = sorted(d for d in dirs if d not in ("out", "target"))
        for n in sorted(names):
            if n.endswith(end) and f"/{part}/" in folder + "/":
                path = os.path.join(folder, n)
                with open(path, encoding="utf-8") as f:
                    yield os.path.relpath(path, root), f.read()
