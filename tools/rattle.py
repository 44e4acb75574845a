"""The toolkit's compiler, and what it is told of a crate of this repository."""

import functools
import pathlib
import re
import signal
import subprocess

from crates import LIBRARIES, ROOT, below, handles, said_by_toolkit

KIT = pathlib.Path(said_by_toolkit("doc")).parent
RATTLE = str(KIT / "bin" / "rattle")
# Where a crate keeps what was checked of it, for the next check.
KEPT = "out/incremental"
# What a program imports of the C library only under a handle, as `rt ci` has it.
IMPORTS = {
    "Net": r"socket(pair)?|bind|listen|accept4?|connect|(send|recv)(to|from|msg)?|get(addr|name)info|gethostby\w+"
    r"|epoll_\w+|eventfd",
    "Processes": r"v?fork|clone3?|posix_spawn\w*|exec[lv]\w*|fexecve|system|popen|wait(pid|id|[34])?",
    "Threads": r"(pthread|thrd)_create",
}


@functools.cache
def help_of(command):
    """What a command of the compiler says of itself: it tells what this toolkit can do."""
    return subprocess.run([RATTLE, command, "--help"], stdout=subprocess.PIPE, text=True).stdout


def folder_of(crate):
    return ROOT / "crates" / crate


def is_program(crate):
    return (folder_of(crate) / "src" / "main.rt").is_file()


def rlib(crate):
    """The library that is built of a crate."""
    return folder_of(crate) / "out" / "rlib" / f"{crate}.rlib"


def words(crate, jobs, kept=KEPT):
    """What `rt` tells the compiler of a crate, in its folder: to check it with so many jobs over the libraries that
    were built of those below, and to keep there what was checked."""
    found = ["--crate-name", crate, "src/main.rt" if is_program(crate) else "src/lib.rt"]
    for name in ["std", *LIBRARIES[crate]]:
        found += ["--extern", f"{name}={rlib(name) if name in LIBRARIES else KIT / 'rlibs' / f'{name}.rlib'}"]
    for folder in [KIT / "rlibs", *(rlib(name).parent for name in below(crate))]:
        found += ["-L", f"dependency={folder}"]
    found += ["--antt-project", str(KIT / "rattle" / "logic" / "antt-project.json")]
    found += ["--logic-built", str(KIT / "logic_built"), "--links", f"{crate}="]
    return [*found, "--jobs", str(jobs), *(["--incremental", str(kept)] if kept else [])]


def run(command, folder, held=()):
    """The status of a command, and all that it printed. It has these open files for as long as it runs."""
    how = {"stdin": subprocess.DEVNULL, "stdout": subprocess.PIPE, "stderr": subprocess.STDOUT, "text": True}
    ran = subprocess.run(command, cwd=folder, errors="replace", pass_fds=held, **how)
    return ran.returncode, ran.stdout


def imported(program):
    """What a linked program imports under handles that HANDLES doesn't allow."""
    # (the toolkit has all of LLVM's tools in one file, which goes by its first word)
    words = ["llvm-nm", "-D", "--undefined-only", "-j", str(program)]
    tools = KIT / "toolchain" / "bin" / "clang"
    ran = subprocess.run(words, executable=tools, stdout=subprocess.PIPE, text=True, check=True)
    names = sorted({it.partition("@")[0] for it in ran.stdout.split()})
    refused = [pattern for handle, pattern in IMPORTS.items() if handle not in handles()]
    return [it for it in names if any(re.fullmatch(pattern, it) for pattern in refused)]


def build(command, folder, held):
    """The status of a build by these words, and what the compiler says of it and of contracts that no call can meet.
    One with several jobs that is killed, most likely for memory, is made again with one."""
    empty = ["--empty-contracts"] if "--empty-contracts" in help_of("build") else []
    status, said = run([RATTLE, "build", *command, *empty], folder, held)
    at = command.index("--jobs") + 1
    if status == -signal.SIGKILL and command[at] != "1":
        return build([*command[:at], "1", *command[at + 1 :]], folder, held)
    return status, said


def build_library(crate, jobs, keeps, held=()):
    """Builds a crate's library. It may keep what was checked, for the next check of the crate. Otherwise its library has
    only statements, if the toolkit can: those above it then read no proofs."""
    statements = ["--statements"] if "--statements" in help_of("build") and not keeps else []
    command = [*words(crate, jobs, None if statements else KEPT), *statements, "-o", f"out/rlib/{crate}.rlib"]
    return build(command, folder_of(crate), held)


def build_program(crate, jobs, keeps, held=()):
    """Builds a program, and links it. It may keep what was checked."""
    toolchain = ["--toolchain", str(KIT / "toolchain")]
    backend = ["--backend", "llvm"] if "--backend" in help_of("build") else []
    command = [*words(crate, jobs, KEPT if keeps else None), *toolchain, *backend, "-o", f"out/{crate}.o"]
    status, said = build(command, folder_of(crate), held)
    if status:
        return status, said
    files = [f"out/{crate}.o", *(str(KIT / "c" / name) for name in ("libos_c.a", "liblibc_c.a"))]
    linked = ["--target", "x86_64-unknown-linux-gnu", *toolchain, "-o", f"out/{crate}", *files]
    status, more = run([str(KIT / "bin" / "rattle-link"), *linked], folder_of(crate), held)
    return status, said + more
