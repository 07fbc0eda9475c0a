"""What the scripts beside this file ask of the kit that `rt` has no command for: a check of one crate over the libraries that lie in
crates/*/out/rlib, as `rt ci` runs it."""
import os
import subprocess

ROOT = os.path.dirname(os.path.dirname(os.path.abspath(__file__)))
KIT = os.path.dirname(subprocess.run(["rt", "doc"], check=True, stdout=subprocess.PIPE, text=True).stdout.strip())
RATTLE = f"{KIT}/bin/rattle"


def listed():
    """The crates of crates.txt, each with the names behind its colon, and those of them that are static libraries."""
    crates, static = {}, set()
    with open(f"{ROOT}/crates.txt", encoding="utf-8") as file:
        for line in file:
            head, colon, names = line.partition("#")[0].partition(":")
            words = head.split()
            if words:
                crates[words[0]] = names.split()
                static |= {words[0]} if "staticlib" in words else set()
    return crates, static


CRATES, STATIC = listed()


def below(crate):
    """The repository's crates that this one stands on, through others too."""
    found = []
    for name in CRATES[crate]:
        if name in CRATES:
            found += [it for it in [*below(name), name] if it not in found]
    return found


def words(crate):
    """The words of the kit's command `rattle check` for this crate, in its folder or in a copy of that."""
    said = ["--crate-name", crate, "src/main.rt" if os.path.isfile(f"{ROOT}/crates/{crate}/src/main.rt") else "src/lib.rt"]
    for name in ["std", *CRATES[crate]]:
        at = f"{ROOT}/crates/{name}/out/rlib" if name in CRATES else f"{KIT}/rlibs"
        said += ["--extern", f"{name}={at}/{name}.rlib"]
    for at in [f"{KIT}/rlibs", *[f"{ROOT}/crates/{name}/out/rlib" for name in below(crate)]]:
        said += ["-L", f"dependency={at}"]
    said += ["--antt-project", f"{KIT}/rattle/logic/antt-project.json", "--logic-built", f"{KIT}/logic_built", "--links", f"{crate}="]
    return said + ["--crate-type", "staticlib"] * (crate in STATIC)
