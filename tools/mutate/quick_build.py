"""A program of the sources as they stand, unproved and without checks of memory: some thirty times as quick as the one
that `rt try` builds.

`rt try` passes the whole program to the kit's compiler as one module. Here it runs from a kit of links to the machine's
kit, whose compiler saves that module and fails. The module is then edited and compiled."""

import os
import pathlib
import shutil
import subprocess
from typing import Callable

Words = list[str | pathlib.Path]
# Keeps the module of a program. The compiler's other calls are the tool's looks at whether it works.
KEEPING = """#!/bin/sh
case " $* " in *" -fsanitize=address "*) cp module.bc '{module}'; exit 1;; esac
exec {clang} "$@"
"""
TARGET = ["--target=x86_64-unknown-linux-gnu", "--no-default-config", "-fPIE"]


def kit() -> pathlib.Path:
    found = shutil.which("rt")
    if not found:
        raise FileNotFoundError("there is no rt")
    return pathlib.Path(found).resolve().parent.parent


def make_kit(folder: pathlib.Path, module: pathlib.Path) -> None:
    """Makes a kit in a folder, whose compiler keeps a program's module in that file."""
    real = kit()
    for name in (".", "bin", "toolchain", "toolchain/bin"):
        (folder / name).mkdir()
        for it in (real / name).iterdir():
            # rt and its library look for the kit beside themselves.
            if it.name in ("rt", "rtlib.py"):
                shutil.copy(it, folder / name / it.name)
            elif it.name not in ("bin", "toolchain"):
                (folder / name / it.name).symlink_to(it.resolve())
    clang = folder / "toolchain" / "bin" / "clang"
    clang.unlink()
    clang.write_text(KEEPING.format(module=module, clang=real / "toolchain" / "bin" / "clang"))
    clang.chmod(0o755)


def module_of(crate: pathlib.Path, folder: pathlib.Path) -> tuple[pathlib.Path | None, str]:
    """The module of a crate's program, a file in that folder; or none, and what `rt try` says."""
    module, mine = folder / "module.bc", folder / "kit"
    module.unlink(missing_ok=True)
    shutil.rmtree(mine, ignore_errors=True)
    make_kit(mine, module)
    env = {**os.environ, "TMPDIR": str(folder)}
    words: Words = [mine / "bin" / "rt", "try", "--steps", "1", "--", "replay"]
    done = subprocess.run(words, cwd=crate, env=env, stdin=subprocess.DEVNULL, capture_output=True, text=True)
    return (module, "") if module.exists() else (None, done.stdout + done.stderr)


def program_of(module: pathlib.Path, edit: Callable[[str], str], source: pathlib.Path) -> bytes:
    """The program of a module that is edited as a text, with a source in C beside it."""
    folder, real = module.parent, kit()
    text, parts = folder / "module.ll", [folder / "module.o", folder / "source.o"]
    clang: Words = [real / "toolchain" / "bin" / "clang", *TARGET, "-x", "ir"]
    readable = ["-O0", "-Xclang", "-disable-llvm-passes", "-S", "-emit-llvm"]
    subprocess.run([*clang, *readable, module, "-o", text], check=True)
    text.write_text(edit(text.read_text()))
    cuts = ["-ffunction-sections", "-fdata-sections", "-mllvm", "-trap-unreachable"]
    subprocess.run([*clang, "-O1", *cuts, "-c", text, "-o", parts[0]], check=True)
    subprocess.run(["cc", "-O2", "-fPIE", "-c", source, "-o", parts[1]], check=True)
    libraries: Words = [real / "c" / "libos_c.a", real / "c" / "liblibc_c.a", "-lm", "-lpthread"]
    subprocess.run(["cc", "-pie", *parts, *libraries, "-o", folder / "program"], check=True)
    return (folder / "program").read_bytes()
