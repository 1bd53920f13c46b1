#!/usr/bin/env python3
"""Packs the package python/polytwkb and the shared library into a wheel, with no tool but this Python:

    scripts/wheel.py FOLDER [LIBRARY]
    pip install .                          by pyproject.toml, once `make lib` has made the library
    pip install -e .                       the same over the sources, with the library in out/

The same build gives the same bytes: names are sorted, and each time is SOURCE_DATE_EPOCH, or the first that an archive
can have. HOMEPAGE, if it is set, is the address of the sources. The package refuses a library of another version.
"""
import base64
import hashlib
import os
import re
import sys
import time
import zipfile

REPO = os.path.abspath(os.path.join(os.path.dirname(__file__), ".."))
# The processors by their numbers in a file of ELF.
MACHINES = {62: "x86_64", 183: "aarch64"}


def bytes_of(*names):
    with open(os.path.join(REPO, *names), "rb") as file:
        return file.read()


def tag_of(library):
    """The platform of the wheel: its processor, and the C library of 2.17, which every pip knows, or the newest that the library needs."""
    machine = MACHINES[int.from_bytes(library[18:20], "little")]
    versions = [tuple(map(int, found.split(b"."))) for found in re.findall(rb"GLIBC_(\d+\.\d+)", library)]
    major, minor = max(versions + [(2, 17)])
    older = f".manylinux2014_{machine}" if (major, minor) == (2, 17) else ""
    return f"manylinux_{major}_{minor}_{machine}{older}"


def project_fact(name):
    """A text of pyproject.toml, which has one of each name: Python 3.8 reads no TOML by itself."""
    return re.search(rf'^{name} = (?:{{ text = )?"(.*?)"', bytes_of("pyproject.toml").decode(), re.M).group(1)


def facts_of(number, tag):
    """The files that say what the wheel is, but for the one of sums."""
    homepage = os.environ.get("HOMEPAGE")
    address = f"Project-URL: Source, {homepage}\n" if homepage else ""
    tags = "".join(f"Tag: py3-none-{platform}\n" for platform in tag.split("."))
    return {
        "LICENSE": bytes_of("LICENSE").decode(),
        "METADATA": f"Metadata-Version: 2.1\nName: {project_fact('name')}\nVersion: {number}\nSummary: {project_fact('description')}\n"
        f"License: {project_fact('license')}\n{address}Requires-Python: {project_fact('requires-python')}\n"
        f"Description-Content-Type: text/markdown\n\n{bytes_of(project_fact('readme')).decode()}",
        "WHEEL": f"Wheel-Version: 1.0\nGenerator: polytwkb\nRoot-Is-Purelib: false\n{tags}",
        "entry_points.txt": f"[console_scripts]\npolytwkb = {project_fact('polytwkb')}\n",
    }


def library_of(library_file):
    """The bytes of the shared library."""
    if not os.path.exists(os.path.join(REPO, library_file)):
        sys.exit(f"wheel.py: {library_file} is not there; 'make lib' makes it")
    return bytes_of(library_file)


def packed(folder, tag, files):
    """Writes a wheel of these files into a folder, with what says what it is, and returns its name."""
    number = re.search(r'^VERSION = "(.*)"', bytes_of("python/polytwkb/_library.py").decode(), re.M).group(1)
    facts, day = f"polytwkb-{number}.dist-info", time.gmtime(int(os.environ.get("SOURCE_DATE_EPOCH", "315532800")))[:6]
    files.update((f"{facts}/{name}", text.encode()) for name, text in facts_of(number, tag).items())
    record = ""
    for name, content in files.items():
        record += f"{name},sha256={base64.urlsafe_b64encode(hashlib.sha256(content).digest()).rstrip(b'=').decode()},{len(content)}\n"
    files[f"{facts}/RECORD"] = f"{record}{facts}/RECORD,,\n".encode()
    os.makedirs(folder, exist_ok=True)
    with zipfile.ZipFile(os.path.join(folder, f"polytwkb-{number}-py3-none-{tag}.whl"), "w") as wheel:
        for name, content in files.items():
            entry = zipfile.ZipInfo(name, day)
            entry.create_system, entry.external_attr, entry.compress_type = 3, 0o100644 << 16, zipfile.ZIP_DEFLATED
            wheel.writestr(entry, content, compresslevel=9)
    return os.path.basename(wheel.filename)


def written(folder, library_file="out/libpolytwkb.so"):
    """Writes the wheel into a folder, and returns its name."""
    library = library_of(library_file)
    names = [name for name in os.listdir(os.path.join(REPO, "python/polytwkb")) if name.endswith((".py", ".typed"))]
    files = {
        f"polytwkb/{name}": library if name.endswith(".so") else bytes_of("python/polytwkb", name)
        for name in sorted([*names, "libpolytwkb.so"])
    }
    return packed(folder, tag_of(library), files)


def build_wheel(wheel_directory, config_settings=None, metadata_directory=None):
    """What pip calls (PEP 517)."""
    return written(wheel_directory)


def build_editable(wheel_directory, config_settings=None, metadata_directory=None):
    """What pip calls for `-e` (PEP 660): a wheel that names the sources, and the library in out/ unless another is named."""
    library = os.path.abspath(os.environ.get("POLYTWKB_LIBRARY") or os.path.join(REPO, "out/libpolytwkb.so"))
    text = f"{os.path.join(REPO, 'python')}\nimport os; os.environ.setdefault('POLYTWKB_LIBRARY', {library!r})\n"
    return packed(wheel_directory, tag_of(library_of(library)), {"polytwkb.pth": text.encode()})


if __name__ == "__main__":
    print(os.path.join(sys.argv[1], written(*sys.argv[1:])))
