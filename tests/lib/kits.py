"""Toolkits that are the real one but for its compiler."""

import os
import pathlib
import subprocess
import tempfile

RT = os.environ.get("RT", "rt")


def kit_with(room, compiler):
    """The `rt` of a toolkit with this script in the place of its compiler. In the script, {rattle} is the real one."""
    said = subprocess.run([RT, "doc"], stdout=subprocess.PIPE, text=True, check=True).stdout
    kit, real = pathlib.Path(tempfile.mkdtemp(dir=room)), pathlib.Path(said.strip()).parent
    for it in real.iterdir():
        if it.name != "bin":
            (kit / it.name).symlink_to(it)
    (kit / "bin").mkdir()
    rt = f'#!/bin/sh\n[ $1 = doc ] && echo {kit}/page || exec {RT} "$@"\n'
    for name, text in [("rt", rt), ("rattle", compiler.replace("{rattle}", str(real / "bin" / "rattle")))]:
        (kit / "bin" / name).write_text(text)
        (kit / "bin" / name).chmod(0o755)
    return str(kit / "bin" / "rt")
