#!/usr/bin/env python3
"""Runs a notebook in its folder by nbclient, in this Python, and prints it with what its cells
show.

    notebook.py FILE.ipynb > NEW.ipynb
"""
import json
import os
import sys
from pathlib import Path
from tempfile import TemporaryDirectory
from typing import Any

import nbformat
from nbclient import NotebookClient

KERNEL = {
    "argv": [sys.executable, "-m", "ipykernel_launcher", "-f", "{connection_file}"], "display_name": "this Python",
    "language": "python",
}
# What is written of the kernel, whichever ran it.
ANY_KERNEL = {"kernelspec": {"display_name": "Python 3", "language": "python", "name": "python3"},
              "language_info": {"name": "python"}}


def executed(path: Path) -> Any:
    """A notebook as its cells show it when they run one after the other."""
    found, place = nbformat.read(path, as_version=4), {"metadata": {"path": str(path.parent)}}
    with TemporaryDirectory(prefix="noc-kernel-") as folder:
        kernel = Path(folder) / "kernels/here/kernel.json"
        kernel.parent.mkdir(parents=True)
        kernel.write_text(json.dumps(KERNEL))
        os.environ["JUPYTER_PATH"] = folder
        NotebookClient(found, timeout=600, kernel_name="here", resources=place).execute()
    for cell in found.cells:
        cell.metadata.pop("execution", None)
    found.metadata = nbformat.from_dict(ANY_KERNEL)
    return found


if __name__ == "__main__":
    print(json.dumps(executed(Path(sys.argv[1])), indent=1, ensure_ascii=False, sort_keys=True))
