#!/usr/bin/env python3
"""archive.py [--over ARCHIVE] [FOLDER], at the top of the repository: the library for C, over the libraries that 'rt ci' left.

The gate proves cedar_c, and leaves no archive of it. This proves that crate once more, some two minutes, and none below it: those
libraries are the gate's. Where one is missing it says so, and nothing is built. With --over it takes an archive of the crate that is
there. The guard (crates/cedar_c/guard) is compiled and put before the proved functions, which takes a C compiler, $CC or cc, and its
tools. FOLDER, or crates/cedar_c/out/cedar, then has

    include/cedar.h
    lib/libcedar.a              one object, which exports what the header declares, and nothing else
    lib/libcedar.so.MAJOR       the same, with that name inside, and lib/libcedar.so
    lib/pkgconfig/cedar.pc

Prints the folder, and ends with status 1 where nothing was built."""

import os
import re
import shutil
import sys
import tempfile

sys.dont_write_bytecode = True
from kit import Failed, load, run

CRATE = "crates/cedar_c"
HEADER = f"{CRATE}/include/cedar.h"
GUARD = f"{CRATE}/guard"
PROVED = f"{CRATE}/out/libcedar_c.a"
FOLDER = f"{CRATE}/out/cedar"
PC = """prefix=${{pcfiledir}}/../..
Name: cedar
Description: Sessions of a Cedar authorizer
Version: {version}
Cflags: -I${{prefix}}/include
Libs: -L${{prefix}}/lib -lcedar -pthread
"""


def text_of(path):
    with open(path, encoding="utf-8") as it:
        return it.read()


def declared():
    """The functions that the header declares."""
    return re.findall(r"(?m)^CEDAR_API .*?\b(cedar_\w+)\(", text_of(HEADER))


def version():
    """The version that the header states, whose first two numbers it states once more."""
    header = text_of(HEADER)
    stated, *numbers = (re.search(rf'(?m)^#define CEDAR_VERSION{it} "?([^"\n]*)"?$', header)[1] for it in ("", "_MAJOR", "_MINOR"))
    if stated.split(".")[:2] != numbers:
        raise Failed(f"{HEADER}: CEDAR_VERSION is {stated}, and its numbers are {' and '.join(numbers)}")
    return stated


def shared_name():
    return f"libcedar.so.{version().partition('.')[0]}"


def tool(name):
    """A tool of the C compiler's, or what the environment names in its place."""
    return os.environ.get(name.upper(), name)


def prove(rt):
    """Builds the archive of the proved functions."""
    lib = rt.rtlib
    rt.Crate.cuts_libraries = True
    crate = next(it for it in lib.crates_below(os.getcwd()) if it.name == "cedar_c")
    missing = [it.name for it in crate.below() if not os.path.isdir(it.rlib)]
    if missing:
        raise Failed(f"rt ci hasn't left the libraries of {' '.join(missing)}")
    os.makedirs(f"{crate.folder}/out", exist_ok=True)
    words = crate.words(["--jobs", str(min(os.cpu_count() or 1, 4))], keeps=False)
    run(lib.RATTLE, "build", *words, "--backend", "llvm", "--toolchain", f"{lib.KIT}/toolchain", "-o", os.path.abspath(PROVED), cwd=crate.folder)


def fold(archives, room, target):
    """One archive of the guard, the proved functions and the kit's, of which all names but the header's are its own."""
    named = [f"--redefine-sym={it}={it.replace('cedar_', 'cedar_proved_', 1)}" for it in declared()]
    run(tool("objcopy"), *named, archives[0], f"{room}/proved.a")
    objects = []
    for source in sorted(it for it in os.listdir(GUARD) if it.endswith(".c")):
        objects.append(f"{room}/{source}.o")
        flags = ["-std=c11", "-O2", "-fPIC", "-pthread", "-fvisibility=hidden", "-ffunction-sections", "-Wall", "-Wextra", "-Wpedantic", "-Werror"]
        run(tool("cc"), *flags, f"-I{CRATE}/include", "-c", f"{GUARD}/{source}", "-o", objects[-1])
    run(tool("cc"), "-r", "-nostdlib", "-o", f"{room}/cedar.o", *objects, f"{room}/proved.a", *archives[1:])
    # (that section numbers symbols, which have other numbers now)
    kept = [f"--keep-global-symbol={it}" for it in declared()]
    run(tool("objcopy"), "--remove-section=.llvm_addrsig", *kept, f"{room}/cedar.o")
    if os.path.exists(target):
        os.remove(target)
    run(tool("ar"), "rcsD", target, f"{room}/cedar.o")


def link(archive, room, folder):
    """A shared object of an archive."""
    name, version_script = shared_name(), f"{room}/cedar.map"
    with open(version_script, "w", encoding="utf-8") as it:
        it.write("CEDAR_%s { global: %s local: *; };\n" % (version().rpartition(".")[0], "".join(f"{it}; " for it in declared())))
    flags = [f"-Wl,--version-script={version_script}", f"-Wl,-soname={name}", "-Wl,-z,defs", "-Wl,-z,relro", "-Wl,-z,now", "-Wl,--gc-sections"]
    run(tool("cc"), "-shared", "-pthread", *flags, "-o", f"{folder}/{name}", "-Wl,--whole-archive", archive, "-Wl,--no-whole-archive")
    short = f"{folder}/libcedar.so"
    if os.path.lexists(short):
        os.remove(short)
    os.symlink(name, short)


def lay(archives, folder):
    """Lays what C needs into a folder."""
    for part in ("include", "lib/pkgconfig"):
        os.makedirs(f"{folder}/{part}", exist_ok=True)
    with tempfile.TemporaryDirectory() as room:
        fold(archives, room, f"{folder}/lib/libcedar.a")
        link(f"{folder}/lib/libcedar.a", room, f"{folder}/lib")
    shutil.copyfile(HEADER, f"{folder}/include/cedar.h")
    with open(f"{folder}/lib/pkgconfig/cedar.pc", "w", encoding="utf-8") as it:
        it.write(PC.format(version=version()))


def main():
    words = sys.argv[1:]
    over = None
    if words[:1] == ["--over"] and len(words) > 1:
        over, words = words[1], words[2:]
    if len(words) > 1 or words[:1] and words[0].startswith("-"):
        sys.exit(__doc__)
    folder = words[0] if words else FOLDER
    try:
        rt = load()
        if over is None:
            prove(rt)
        lay([over or PROVED, f"{rt.rtlib.KIT}/c/liblibc_c.a"], folder)
    except Failed as why:
        print(why, file=sys.stderr)
        return 1
    print(folder)
    return 0


if __name__ == "__main__":
    sys.exit(main())
