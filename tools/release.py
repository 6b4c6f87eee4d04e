#!/usr/bin/env python3
"""release.py --log FILE FOLDER, at the top of the repository: one archive of what a passed gate leaves.

FILE is a line 'commit COMMIT', and then all that 'rt ci' wrote:

    { echo "commit $(git rev-parse HEAD)" && rt ci 2>&1; } | tee out/gate.log && tools/archive.py

FOLDER gets

    jaxombe-VERSION-COMMIT.tar.gz

which holds, in a folder of that name,

    bin/                  the programs cedar_session and cedar_cli
    include/ and lib/     the library for C, as tools/archive.py leaves it
    clients/              as they are committed
    LICENSE, NOTICE
    VERDICT               the commit, the toolchain, and what the gate printed last of the programs and of the library
    SHA256SUMS            of all the other files: 'sha256sum -c SHA256SUMS' compares them

What is packed twice from one commit and one log is the same byte for byte: names are sorted, and times (the commit's), owners and
modes are set. Prints the path of the archive. Nothing is packed, and the status is 1, where the gate left nothing, is of another commit
or didn't prove one of the three, where a program says that it isn't proved, or where the tree isn't what was committed."""

import gzip
import hashlib
import io
import os
import re
import subprocess
import sys
import tarfile

sys.dont_write_bytecode = True
import archive
from kit import Failed

PROGRAMS = {"bin/cedar_session": "crates/cedar_main/out/cedar_main", "bin/cedar_cli": "crates/cedar_cli/out/cedar_cli"}
PROVED = ("cedar_main", "cedar_cli", "cedar_c")
TEXTS = ("LICENSE", "NOTICE")
UNPROVED = b"(not proved)"


def bytes_of(path):
    with open(path, "rb") as it:
        return it.read()


def said(*words):
    """The line that a command prints."""
    try:
        done = subprocess.run(words, stdin=subprocess.DEVNULL, capture_output=True, text=True)
    except OSError as why:
        raise Failed(f"{words[0]}: {why.strerror}") from why
    if done.returncode:
        raise Failed(f"{' '.join(words)}: {done.stderr.strip()}")
    return done.stdout.strip()


def library():
    """The files of the library for C, by their names in the archive, with the short name of the shared object."""
    names = ["include/cedar.h", "lib/libcedar.a", f"lib/{archive.shared_name()}", "lib/pkgconfig/cedar.pc"]
    return {it: f"{archive.FOLDER}/{it}" for it in names}


def packed():
    """What is packed, by its name in the archive; what isn't there is told."""
    clients = said("git", "ls-files", "clients").splitlines()
    paths = {**PROGRAMS, **library(), **{it: it for it in (*TEXTS, *clients)}}
    missing = [it for it in paths.values() if not os.path.isfile(it)]
    if missing:
        raise Failed(f"the gate left no {', '.join(missing)}")
    files = {name: bytes_of(path) for name, path in paths.items()}
    unproved = [PROGRAMS[it] for it in PROGRAMS if UNPROVED in files[it]]
    if unproved:
        raise Failed(f"{', '.join(unproved)}: a build without a proof")
    return files


def commit_of(log):
    """The commit that the gate tried, which the tree has to be."""
    commit = said("git", "rev-parse", "HEAD")
    if not log.startswith(f"commit {commit}\n"):
        raise Failed(f"the log isn't of {commit}")
    changed = said("git", "status", "--porcelain", "--untracked-files=no")
    if changed:
        raise Failed(f"the tree isn't {commit}:\n{changed}")
    return commit


def verdict_of(log, crate):
    """What the gate printed last of a crate: of its check, or that an earlier check of the same files is kept."""
    proved = re.search(rf"(?ms)^== {crate}\n(?:(?!^== ).)*?^(logic=proved [^\n]*)\n(?:(?!^== ).)*?^rt: {crate} proved$", log)
    kept = re.search(rf"(?m)^rt: ({crate} is kept: .*)$", log)
    if not proved and not kept:
        raise Failed(f"the log doesn't say that {crate} is proved")
    return proved[1] if proved else kept[1]


def verdict(log, commit):
    lines = [f"commit {commit}", f"toolchain {said('rt', 'version')}", *(f"{it}: {verdict_of(log, it)}" for it in PROVED)]
    return "".join(f"{it}\n" for it in lines).encode()


def sums(files):
    return "".join(f"{hashlib.sha256(files[it]).hexdigest()}  {it}\n" for it in sorted(files)).encode()


def entry(name, time, is_program=False):
    """The head of a file in the archive, of which nothing hangs on the machine."""
    it = tarfile.TarInfo(name)
    it.mtime, it.mode = time, 0o755 if is_program else 0o644
    return it


def tar_of(files, links, top, time):
    written = io.BytesIO()
    with tarfile.open(fileobj=written, mode="w", format=tarfile.USTAR_FORMAT) as tar:
        for name in sorted([*files, *links]):
            it = entry(f"{top}/{name}", time, name in PROGRAMS or ".so" in name)
            if name in links:
                it.type, it.linkname = tarfile.SYMTYPE, links[name]
            else:
                it.size = len(files[name])
            tar.addfile(it, io.BytesIO(files.get(name, b"")))
    return written.getvalue()


def write(path, tar):
    """Writes an archive whose head has no name and no time."""
    os.makedirs(os.path.dirname(path), exist_ok=True)
    with open(path, "wb") as raw, gzip.GzipFile(filename="", mode="wb", fileobj=raw, mtime=0) as it:
        it.write(tar)


def release(log, folder):
    commit = commit_of(log)
    files = packed()
    files["VERDICT"] = verdict(log, commit)
    files["SHA256SUMS"] = sums(files)
    links = {"lib/libcedar.so": archive.shared_name()}
    top = f"jaxombe-{archive.version()}-{commit[:12]}"
    time = int(said("git", "show", "-s", "--format=%ct", commit))
    path = f"{folder}/{top}.tar.gz"
    write(path, tar_of(files, links, top, time))
    return path


def main():
    words = sys.argv[1:]
    if len(words) != 3 or words[0] != "--log":
        sys.exit(__doc__)
    try:
        print(release(bytes_of(words[1]).decode(errors="replace"), words[2]))
    except (Failed, OSError) as why:
        print(why, file=sys.stderr)
        return 1
    return 0


if __name__ == "__main__":
    sys.exit(main())
