"""What a check needs: programs of this repository, tools, and the files of boards and of packages. A check that lacks one of them
ends with 77 and says which."""

import argparse, os, pathlib, shutil, subprocess, tempfile

from lib.result import skipped

TOP = pathlib.Path(__file__).resolve().parents[2]
CRATES, EXAMPLES, C_FILES = TOP / "crates", TOP / "examples", TOP / "checks/lib/c"
# the package of Debian that has a tool
PACKAGES = {
    "cc": "gcc", "gcc": "gcc", "dtc": "device-tree-compiler", "fdtoverlay": "device-tree-compiler", "mkimage": "u-boot-tools",
    "qemu-system-aarch64": "qemu-system-arm", "/usr/lib/u-boot/qemu_arm64/u-boot.bin": "u-boot-qemu", "libfdt": "libfdt-dev",
}


def words_of(text):
    """The parser of a check's words, whose help is the text at its head."""
    return argparse.ArgumentParser(description=text, usage=argparse.SUPPRESS, formatter_class=argparse.RawDescriptionHelpFormatter)


def program(name):
    """The file of a program: the one that the environment names, as DOM0LESS, or what `rt run` and `rt ci` leave of its crate."""
    named = os.environ.get(name.upper())
    crate = f"{name}_cli" if (CRATES / f"{name}_cli").is_dir() else name
    return pathlib.Path(named).resolve() if named else CRATES / crate / "out" / crate


def has_libfdt():
    """Whether a C program can be linked with libfdt."""
    words = ["gcc", "-x", "c", "-", "-o", os.devnull, "-lfdt"]
    source = b"#include <libfdt.h>\nint main(void) { return fdt_check_header(0); }\n"
    return bool(shutil.which("gcc")) and subprocess.run(words, input=source, capture_output=True).returncode == 0


def is_there(wanted):
    if isinstance(wanted, pathlib.Path):
        return os.access(wanted, os.X_OK)
    return has_libfdt() if wanted == "libfdt" else bool(shutil.which(wanted)) or "/" in wanted and os.access(wanted, os.R_OK)


def told_of(wanted):
    """How it is said that a tool, a file or a program is missing."""
    if isinstance(wanted, pathlib.Path) and CRATES in wanted.parents:
        crate = wanted.relative_to(CRATES).parts[0]
        return f"{wanted.name} is not built (cd crates/{crate} && rt run </dev/null)"
    return f"{wanted} is not there" + (f" (Debian: {PACKAGES[wanted]})" if wanted in PACKAGES else "")


def lacking(*wanted):
    """What is missing of some tools and files, by their names, and programs, by their paths; an empty text where all are there."""
    return ", ".join(told_of(it) for it in wanted if not is_there(it))


def need(*wanted):
    """Ends the check with 77 where one of these tools, files and programs is missing."""
    if told := lacking(*wanted):
        skipped(told)


def folders(given):
    """The folders that a check is given by its words, or by the environment's CHECKS_BOARDS, with a colon between two."""
    return [pathlib.Path(it) for it in given or filter(None, os.environ.get("CHECKS_BOARDS", "").split(":"))]


def files(given, pattern):
    """All files of a pattern below the folders, in order."""
    return [path for folder in folders(given) for path in sorted(folder.rglob(pattern)) if path.is_file()]


def first_file(given, pattern):
    """The bytes of the first file of a pattern below the folders, or None."""
    return next((path.read_bytes() for path in files(given, pattern)), None)


def compiled(source, folder, flags=(), libraries=()):
    """The program or the library that a C file of checks/lib/c becomes."""
    made = pathlib.Path(folder, pathlib.Path(source).stem)
    subprocess.run(["cc", "-O2", *flags, "-o", made, C_FILES / source, *libraries], check=True)
    return made


def kept(data, name):
    """Keeps the file that something is not so of, and answers where."""
    with tempfile.NamedTemporaryFile(prefix="not-so-", suffix=f"-{name}", delete=False) as file:
        file.write(data)
    return file.name
