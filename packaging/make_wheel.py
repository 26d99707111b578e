#!/usr/bin/env python3
"""Makes a wheel of the Python module, with the library inside: `pip install` of it needs
neither a compiler nor the net. The wheel of the same files is the same byte for byte.

    python3 packaging/make_wheel.py libldvbi.so.3 dist        (`make wheel` does so)

The library is of this machine. Its wheel has the tag `manylinux`, for all distributions of Linux with a C library of a
certain age, where the rule of auditwheel holds, by what readelf says of the library: it needs no library but those that
each distribution has, and no processor beyond the first of its kind. Else the tag is that of this machine's Linux."""

import base64
import hashlib
import os
import pathlib
import re
import subprocess
import sys
import sysconfig
import zipfile

TOP = os.path.dirname(os.path.dirname(os.path.abspath(__file__)))
# What manylinux allows to be needed, of what a library without C++ and windows could need
ALLOWED = re.compile(r"(libc\.so\.6|lib(m|rt)\.so\.[16]|lib(dl|pthread|gcc_s)\.so\.\d|ld-linux-[\w-]+\.so\.\d)$")
OLDEST = (2, 17)  # the oldest C library with a tag on each of the usual processors
MANUAL = "share/man/man1/ldvbi-side.1"


def text_of(name):
    with open(os.path.join(TOP, name), encoding="utf-8") as file:
        return file.read()


def manylinux_of(said):
    """The part of a tag before the processor's name, by what readelf says of a library: `manylinux_2_17`, say, or
    `linux` where the rule doesn't hold."""
    needed = re.findall(r"\(NEEDED\).*\[(.*)\]", said)
    versions = set(re.findall(r"Name: (\w+?)_([\d.]+)", said))
    is_usual = all(ALLOWED.match(name) for name in needed) and {name for name, _ in versions} <= {"GLIBC", "GCC"}
    if not is_usual or re.search(r"ISA needed:.*-v[2-9]", said):
        return "linux"
    glibc = [tuple(map(int, number.split("."))) for name, number in versions if name == "GLIBC"]
    return "manylinux_%d_%d" % max(glibc + [OLDEST])


def tag_of(library):
    system, _, processor = sysconfig.get_platform().partition("-")
    if system != "linux":
        raise ValueError("a wheel is made on Linux, and this is %s" % system)
    try:
        said = subprocess.run(["readelf", "-dVnW", library], stdout=subprocess.PIPE, check=True).stdout.decode()
    except OSError:
        return "py3-none-linux_" + processor
    return "py3-none-%s_%s" % (manylinux_of(said), processor)


def description(name, version):
    """The wheel's METADATA and entry points, from pyproject.toml."""
    text = text_of("pyproject.toml")
    project = dict(re.findall(r'^([a-z-]+) = "(.*)"$', text, re.MULTILINE))
    licence, author = (re.search(r'^%s = .*"(.*)" \}' % member, text, re.MULTILINE).group(1)
                       for member in ("license", "authors"))
    lists = {member: re.findall('"(.*?)"', listed) for member, listed in
             re.findall(r"^(keywords|classifiers) = \[(.*?)\]$", text, re.MULTILINE | re.DOTALL)}
    head = ["Metadata-Version: 2.1", "Name: " + name, "Version: " + version, "Summary: " + project["description"],
            "Author: " + author, "License: " + licence, "Keywords: " + ",".join(lists["keywords"]),
            *["Classifier: " + one for one in lists["classifiers"]],
            "Requires-Python: " + project["requires-python"], "Description-Content-Type: text/markdown"]
    scripts = "[console_scripts]\nldvbi-side = %s\n" % project["ldvbi-side"]
    # Without the comments that say what in it is made from the source
    page = re.sub(r"(?m)^<!--.*-->\n|<!--[^>]*-->", "", text_of(project["readme"]))
    return "\n".join(head) + "\n\n" + page, scripts


def members(library, name, version, tag):
    """The wheel's files, each with its bytes."""
    files = {}
    python = pathlib.Path(TOP, "python")
    for path in python.rglob("*.py"):
        files[str(path.relative_to(python))] = path
    files["ldvbi/" + os.path.basename(library)] = os.path.abspath(library)
    files["%s-%s.data/data/%s" % (name, version, MANUAL)] = MANUAL.replace("man1/", "")
    found = {}
    for place, path in sorted(files.items()):
        with open(os.path.join(TOP, path), "rb") as file:
            found[place] = file.read()
    about = "%s-%s.dist-info/" % (name, version)
    metadata, scripts = description(name, version)
    wheel = "Wheel-Version: 1.0\nGenerator: ldvbi %s\nRoot-Is-Purelib: false\nTag: %s\n" % (version, tag)
    for place, text in (("METADATA", metadata), ("WHEEL", wheel), ("entry_points.txt", scripts),
                        ("LICENSE", text_of("LICENSE"))):
        found[about + place] = text.encode()
    rows = ["%s,sha256=%s,%d" % (place, base64.urlsafe_b64encode(hashlib.sha256(data).digest()).decode().rstrip("="),
                                 len(data)) for place, data in found.items()]
    found[about + "RECORD"] = "\n".join(rows + [about + "RECORD,,", ""]).encode()
    return found


def make_wheel(library, folder):
    """Writes the wheel into the folder. The answer is its path."""
    name = "ldvbi"
    version = re.search(r'^__version__ = "(.*)"$', text_of("python/ldvbi/__init__.py"), re.MULTILINE).group(1)
    tag = tag_of(library)
    path = os.path.join(folder, "%s-%s-%s.whl" % (name, version, tag))
    os.makedirs(folder, exist_ok=True)
    with zipfile.ZipFile(path, "w", zipfile.ZIP_DEFLATED) as wheel:
        for place, data in members(library, name, version, tag).items():
            about = zipfile.ZipInfo(place, (2026, 1, 1, 0, 0, 0))
            about.external_attr = (0o100755 if ".so" in place else 0o100644) << 16
            about.compress_type = zipfile.ZIP_DEFLATED
            wheel.writestr(about, data)
    return path


if __name__ == "__main__":
    try:
        print(make_wheel(*sys.argv[1:]))
    except (OSError, ValueError, subprocess.CalledProcessError) as error:
        sys.exit("make_wheel: %s" % error)
