"""What the files of the library export and need, and how large they are."""

import os
import re
import shutil

from builds import HEADER, difference, run

FUNCTIONS = {f"acpiset_{it}" for it in "check check_text confirm lint find show rebuild stage severity name explain abi".split()}
FROM_OUTSIDE = {"malloc", "realloc", "free", "memcpy", "memmove", "memset", "memcmp", "bcmp"}
# The most bytes of the shared object.
MOST_BYTES = 480_000


def symbols(path, *options):
    """The names that nm lists, with their kinds."""
    lines = run(["nm", "--format=posix", *options, path])[0].splitlines()
    return {name.split("@")[0]: kind for name, kind in (line.split()[:2] for line in lines if len(line.split()) >= 2)}


def stripped_size(path, scratch):
    """The bytes of a file without the symbols that nobody needs, where that can be done here."""
    stripped = scratch / path.name
    is_stripped = shutil.which("strip") and run(["strip", "--strip-unneeded", "-o", stripped, path])[1] == 0
    return (stripped if is_stripped else path).stat().st_size


def files(cases, folder, scratch):
    """What the files export and need, and how large they are."""
    if not shutil.which("nm"):
        print("left out: what the files export and need: no nm")
        return
    archive, shared = folder / "libacpiset.a", folder / "libacpiset.so.1"
    declared = set(re.findall(r"^(?:struct acpiset_answer|uint32_t|size_t) (acpiset_\w+)\(", HEADER.read_text(), re.M))
    cases.count("functions of the header", difference(declared, FUNCTIONS))
    exported = set(symbols(archive, "--defined-only", "--extern-only"))
    cases.count("functions of the archive", difference({name for name in exported if name.startswith("acpiset_")}, FUNCTIONS))
    others = {name for name in exported if not name.startswith(("acpiset_", "rattle_"))}
    cases.count("other names of the archive", difference(others, set()))
    needed = set(symbols(archive, "--undefined-only")) - exported
    cases.count("what the archive needs", difference(needed - FROM_OUTSIDE, set()))
    exported = {name for name, kind in symbols(shared, "-D", "--defined-only").items() if kind != "A"}
    cases.count("functions of the shared object", difference(exported, FUNCTIONS))
    needed = set(symbols(shared, "-D", "--undefined-only"))
    cases.count("what the shared object needs", difference(needed - FROM_OUTSIDE, set()))
    link = folder / "libacpiset.so"
    cases.count("the name without a version", "" if link.is_symlink() and os.readlink(link) == shared.name else "no link to it")
    sizes = {path.name: stripped_size(path, scratch) for path in (archive, shared)}
    cases.count("the size of the shared object", "" if sizes[shared.name] < MOST_BYTES else f"{sizes}")
    print("bytes, stripped: " + ", ".join(f"{name} {size}" for name, size in sizes.items()))
    if shutil.which("readelf"):
        shared_object(cases, shared)


def shared_object(cases, shared):
    """How it is loaded: by its name, with addresses that are set once and then read alone, and with no code on the stack."""
    dynamic, _ = run(["readelf", "-dW", shared])
    program, _ = run(["readelf", "-lW", shared])
    cases.count("its name", "" if "Library soname: [libacpiset.so.1]" in dynamic else dynamic)
    cases.count("its libraries", difference(set(re.findall(r"\(NEEDED\).*\[(.*)\]", dynamic)), {"libc.so.6"}))
    cases.count("bound at once", "" if "BIND_NOW" in dynamic else dynamic)
    cases.count("no code is written to", "" if "TEXTREL" not in dynamic else dynamic)
    cases.count("no library path", "" if "RPATH" not in dynamic and "RUNPATH" not in dynamic else dynamic)
    cases.count("read alone once it is loaded", "" if "GNU_RELRO" in program else program)
    stack = re.search(r"GNU_STACK.* (\S+)\s+0x\S+$", program, re.M)
    cases.count("a stack without code", "" if stack and stack[1] == "RW" else program)
