"""What the tools know of the repository: its crates, what each stands on, sums of their files, and what was built."""

import contextlib
import hashlib
import os
import shutil
import subprocess

TOP = os.path.dirname(os.path.dirname(os.path.realpath(__file__)))
BUILD = f"{TOP}/build"
PROGRAM = "pipitsolder"
SOURCES, ALL = ("src",), ("src", "specs", "proofs")
PROVED, UNPROVED = "proved", "not proved"


def folder_of(crate, top=TOP):
    return f"{top}/crates/{crate}"


def is_program(crate):
    return os.path.isfile(f"{folder_of(crate)}/src/main.rt")


def is_static(crate):
    """Returns whether nothing may stand on the crate, so that its proof leaves no library."""
    return "staticlib" in read_lines()[crate].split(":")[0].split()


def read_lines():
    """Returns the line of each crate of crates.txt, without its comment."""
    with open(f"{TOP}/crates.txt", encoding="utf-8") as lines:
        found = [line.split("#")[0].strip() for line in lines]
    return {line.split(":")[0].split()[0]: line for line in found if ":" in line}


def read_crates():
    """Returns for each crate the crates of the repository and of the kit that it stands on."""
    return {name: line.partition(":")[2].split() for name, line in read_lines().items()}


def below(crates, crate):
    """Returns the crates of the repository that the crate stands on, lowest first."""
    found = []
    for name in crates[crate]:
        if name in crates:
            found += [it for it in [*below(crates, name), name] if it not in found]
    return found


def files_of(crate, parts, top=TOP):
    """Returns the texts in these folders of the crate, each as its path below the top."""
    found = []
    for part in parts:
        for at, folders, files in os.walk(f"{folder_of(crate, top)}/{part}"):
            folders.sort()
            # What an editor keeps beside a file has another end, or begins with a dot.
            texts = sorted(it for it in files if it.endswith((".rt", ".antt")) and not it.startswith("."))
            found += [f"{at[len(top) + 1:]}/{it}" for it in texts]
    return found


def copy_files(names, parts, top):
    """Copies the files in these folders of the crates to the same places below another top."""
    for path in (path for name in names for path in files_of(name, parts)):
        os.makedirs(os.path.dirname(f"{top}/{path}"), exist_ok=True)
        shutil.copy2(f"{TOP}/{path}", f"{top}/{path}")


def sum_of(crates, crate, kit, parts, top=TOP):
    """Returns a hash of the kit, and of the lines and these folders of the crate and of all that it stands on."""
    whole, lines = hashlib.sha256(f"{kit}\n".encode()), read_lines()
    for name in [*below(crates, crate), crate]:
        whole.update(f"{lines[name]}\n".encode())
        for path in files_of(name, parts, top):
            with open(f"{top}/{path}", "rb") as content:
                whole.update(f"/{path}\0".encode() + content.read() + b"\0")
    return whole.hexdigest()


def find_kit():
    """Returns the folder of the kit whose rt is on the path, or none."""
    rt = shutil.which("rt")
    return rt and os.path.dirname(os.path.dirname(os.path.realpath(rt)))


def version_of(kit):
    """Returns what `rt version` says, or none where there is no kit or it cannot be run."""
    if kit is None:
        return None
    with contextlib.suppress(OSError), open(f"{kit}/KIT-ID", encoding="utf-8") as it:
        return it.read().strip()
    with contextlib.suppress(OSError, subprocess.CalledProcessError):
        return subprocess.run(["rt", "version"], stdout=subprocess.PIPE, text=True, check=True).stdout.strip()
    return None


def read_made(name):
    """Returns of the executable build/NAME whether it is proved, by which kit, and the sums of its sources and of all."""
    with contextlib.suppress(OSError), open(f"{BUILD}/{name}.made", encoding="utf-8") as it:
        said = it.read().splitlines()
        if len(said) == 4 and os.access(f"{BUILD}/{name}", os.X_OK):
            return said
    return [UNPROVED, "", "", ""]


def put(executable, name, made):
    """Moves an executable to build/NAME. Until that is whole nothing tells what it was made from."""
    for file in (f"{name}.made", f"{name}.seen"):
        with contextlib.suppress(FileNotFoundError):
            os.remove(f"{BUILD}/{file}")
    os.replace(executable, f"{BUILD}/{name}")
    with open(f"{BUILD}/{name}.new", "w", encoding="utf-8") as it:
        it.write("\n".join(made) + "\n")
    os.replace(f"{BUILD}/{name}.new", f"{BUILD}/{name}.made")
