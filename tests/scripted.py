"""Which commands see a plant of tests/mutants.py outside Python's package, and how it is tried by them in a copy of the
tree. A plant that doesn't compile is none."""

import os
import pathlib
import shutil
import signal
import subprocess
import sys
import tempfile

import planted as python
import planted_text
from planted import TOP

NO_PLANT = "no plant"
NOBODY = 65534  # who runs all where root would: a plant may end processes, or remove files
MOST_SAID = 4000  # bytes of what a command says that fails where nothing is planted
LONGEST = 600  # seconds of a command, which is seen to hang then
PATTERNS = ("Makefile", "examples/*.*", "examples/rust/**/*.*", "include/*", "packaging/*",
            "rust/hand/Cargo.toml", "rust/hand/build.rs", "rust/hand/src/*.rs", "share/*/*")

# The crate is written once, and holds the library for C, too, so that it is built in one go.
CRATE = "{ [ -e rust/crate ] || CARGO=true sh rust/build.sh; } && "
HAND = CRATE + r"""cp -r rust/hand/. rust/crate && mkdir -p built &&
printf '\n[lib]\ncrate-type = ["lib", "cdylib"]\n' >> rust/crate/Cargo.toml &&
(cd rust/crate && cargo test --quiet --no-run --features cli) &&
cp rust/out/debug/ldvbi built && cp rust/out/debug/deps/libldvbi.so built/libldvbi.so.3"""
PROJECT = CRATE + """rm -rf built && mkdir built && cp -r examples/rust built/project &&
{ [ ! -e rust/crate/.cargo ] || cp -r rust/crate/.cargo built/project; } && cd built/project && cargo check --quiet"""
TESTS = "cd rust/crate && cargo test --quiet --features cli --tests"
LIBRARY = """for part in refusals judged plans lines worn; do
LDVBI_LIBRARY=built/libldvbi.so.3 PYTHONPATH=python:tests/unit python3 tests/library/$part.py || exit; done"""
BITS = "mkdir -p built && sh tests/cli/bits_above.sh built"
WRITTEN, NAMED = "python3 texts/write.py --check", "python3 tests/documents.py"
PYTEST = "cd tests/unit && /usr/bin/python3 -m pytest -q -x "
SCHEMA, MODULE = PYTEST + "test_schema.py", PYTEST + "test_module.py test_classes.py"


def script(name, program="$TRIED"):
    return "sh tests/%s.sh %s" % (name, program)


ON_BUILT = [script("cli/" + name, "built/ldvbi") for name in ("program", "words", "device_faults", "want_of_memory")]
# How a file's name begins, what builds it (or fails, as there is no plant then), and the commands, the quickest first
ROWS = (
    ("rust/hand/src/bits_above.rs", BITS, ("built/x86-64 && built/arm-64",)),
    ("rust/hand/src/exports.rs", HAND, (LIBRARY,)),
    ("rust/hand/src/main.rs", HAND, ON_BUILT), ("rust/hand/src/system.rs", HAND, ON_BUILT),
    ("rust/hand/src/clap.rs", HAND, ON_BUILT[:2]),
    ("rust/hand/src/lib.rs", HAND, (TESTS, script("cli/rust_crate"))),
    ("rust/hand/src/", HAND, (TESTS,)),
    ("rust/hand/", CRATE + "cp -r rust/hand/. rust/crate", (script("cli/rust_crate"),)),
    ("include/ldvbi.h", "", (WRITTEN, NAMED, MODULE, script("library/library"), script("library/examples"))),
    ("include/", "", (script("library/installed"), script("cli/packaging"))),
    ("Makefile", "make -n places",
     (script("cli/targets"), script("cli/recipes"), script("library/installed"), script("cli/packaging"))),
    ("packaging/", "", (script("library/packed"), script("library/installed"), script("cli/packaging"))),
    ("share/schema/", "", (WRITTEN, SCHEMA, NAMED, script("cli/docs"))),
    ("share/", "", (WRITTEN, script("cli/manual"), NAMED, script("cli/docs"))),
    ("examples/rust/", PROJECT, (script("cli/rust_answers"), script("cli/rust_crate"))),
    ("examples/stops.cpp", "c++ -std=c++17 -fsyntax-only -Iinclude $FILE", (script("library/examples"),)),
    ("examples/seek.", "", (script("library/fetched"), script("library/examples"), script("cli/docs"))),
    ("examples/", "case $FILE in *.c) cc -fsyntax-only -Iinclude $FILE ;; *.sh) sh -n $FILE ;; esac",
     (script("library/examples"), script("cli/docs"))),
)


def is_built(file):
    """Whether each plant of a file is compiled by cargo, for which a copy has to be made ready."""
    return file.startswith(("rust/", "examples/rust/"))


def files():
    """The files outside Python's package in which is planted."""
    found = sorted({path for pattern in PATTERNS for path in TOP.glob(pattern) if path.is_file()})
    return [str(path.relative_to(TOP)) for path in found]


def plants_of(file):
    return (python if file.endswith(".py") else planted_text).plants_of(file)


def planted(plant):
    return (python if plant.file.endswith(".py") else planted_text).planted(plant)


def temporary(folder):
    """The folder beside a copy of the tree for temporary files."""
    return folder.parent / "temporary"


def environment(folder):
    """That of a command. A make within another one would say on standard output which folder it is in."""
    program = "rust/ldvbi" if (TOP / "rust" / "ldvbi").exists() else "ldvbi"
    more = {"TRIED": program, "STOP_AT_FIRST": "yes", "RUN_SECONDS": "120", "HOME": folder,
            "TMPDIR": temporary(folder), "PYTHONDONTWRITEBYTECODE": "1",
            "CARGO_TARGET_DIR": folder / "rust" / "out", "CARGO_PROFILE_DEV_OPT_LEVEL": "1",
            "CARGO_PROFILE_DEV_DEBUG": "0"}
    more["DIFFERENCES"] = folder / "rust" / "differences.txt" if program.startswith("rust") else ""
    asked = ["rustc", "--print", "sysroot"]  # rustup's own commands are where another user may not go
    if shutil.which("rustc"):
        root = subprocess.run(asked, stdout=subprocess.PIPE, text=True, check=False).stdout.strip()
        more["PATH"] = "%s/bin:%s" % (root, os.environ["PATH"])
    ours = {name: value for name, value in os.environ.items() if not name.startswith(("MAKE", "MFLAGS"))}
    return {**ours, **{name: str(value) for name, value in more.items()}}


def succeeds(folder, command, file, said=subprocess.DEVNULL):
    """Whether a command succeeds in the copy. As nobody, it may read what root may, such as the compiler."""
    words = ["sh", "-c", command]
    if os.getuid() == 0:
        words = ["setpriv", "--reuid=%d" % NOBODY, "--regid=%d" % NOBODY, "--clear-groups",
                 "--inh-caps=+dac_read_search", "--ambient-caps=+dac_read_search", *words]
    with subprocess.Popen(words, cwd=folder, env={**environment(folder), "FILE": file}, stdin=subprocess.DEVNULL,
                          stdout=said, stderr=subprocess.STDOUT, start_new_session=True) as process:
        try:
            return process.wait(LONGEST) == 0
        except subprocess.TimeoutExpired:
            return False
        finally:
            try:
                os.killpg(process.pid, signal.SIGKILL)
            except ProcessLookupError:
                pass


KNOWN = {}  # of this process: whether a command succeeds without a plant


def tried(folder, plant, text):
    """The command that sees a plant, whose file has this text then; NO_PLANT if it isn't built; or None."""
    path, (_, build, commands) = pathlib.Path(folder, plant.file), row_of(plant.file)
    old = path.read_text("utf-8")
    if build and build not in KNOWN:
        KNOWN[build] = succeeds(folder, build, plant.file)
    if build and not KNOWN[build]:
        raise SystemExit("scripted: without a plant this fails: %s" % build)
    try:
        path.write_text(text, "utf-8")
        if build and not succeeds(folder, build, plant.file):
            return NO_PLANT
        for command in commands:
            if not succeeds(folder, command, plant.file) and is_good(folder, plant.file, command, old):
                return command
            if not KNOWN.get(command, True):  # it was tried without the plant
                path.write_text(text, "utf-8")
                succeeds(folder, build or "true", plant.file)
        return None
    finally:
        path.write_text(old, "utf-8")


def row_of(file):
    return next(row for row in ROWS if file.startswith(row[0]))


def is_good(folder, file, command, old):
    """Whether a command succeeds where nothing is planted, the second time at least. Else the end of what it says is
    said."""
    if command not in KNOWN:
        pathlib.Path(folder, file).write_text(old, "utf-8")
        build = row_of(file)[1]
        with tempfile.TemporaryFile() as said:
            KNOWN[command] = (not build or succeeds(folder, build, file)) and any(
                succeeds(folder, command, file, said) for _ in range(2))
            if not KNOWN[command]:
                said.seek(max(0, said.tell() - MOST_SAID))
                text = said.read().decode("utf-8", "replace")
                print("scripted: without a plant this fails: %s\n%s" % (command, text), file=sys.stderr, flush=True)
    return KNOWN[command]
