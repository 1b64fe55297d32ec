"""What is exported, declared and documented is the same."""
import ctypes
import doctest
import importlib
import os
import re
import shutil
import subprocess
import sys
import zipfile

from checks.library import common
from checks.parts import program
from checks.parts.files import read, read_text, write
from checks.parts.places import CRATES, EXAMPLES, at_top
from checks.parts.scenes import scene
from checks.parts.wrong import LeftOut, Wrong, expect

HEADER = at_top("library", "audit_store.h")


def declared():
    """The functions of the header, but for those that it defines itself."""
    text = re.sub(r"/\*.*?\*/", "", read_text(HEADER), flags=re.S)
    return set(re.findall(r"^(?!static)\w[\w ]*[ *](audit_store_\w+)\(", text, re.M))


@scene
def scene_names():
    """The header declares what the library exports, the crate defines and the package calls; no more is visible."""
    from audit_store._library import FUNCTIONS
    sources = os.path.join(CRATES, "audit_c", "src")
    defined = {name for file in os.listdir(sources)
               for name in re.findall(r'extern "C" fn (\w+)', read_text(os.path.join(sources, file)))}
    expect(declared(), defined, "what the header declares, and the crate exports")
    expect({"audit_store_" + name for name in FUNCTIONS}, defined, "what the package calls")
    if shutil.which("nm") is None:
        raise LeftOut("there is no nm")
    lines = subprocess.run(["nm", "-D", "--defined-only", os.path.join(common.FOLDER, "libauditstore.so.1")],
                           capture_output=True, text=True, check=True).stdout.split("\n")
    visible = {line.split()[2].split("@")[0] for line in lines if " T " in line or " D " in line or " B " in line}
    expect(visible, defined, "what libauditstore.so.1 shows")
    needed = subprocess.run(["nm", "-u", common.ARCHIVE], capture_output=True, text=True).stdout
    if not os.environ.get("AUDIT_STORE_GIVEN") and os.path.exists(common.ARCHIVE):
        expect(set(re.findall(r"U (\w+)", needed)), {"memcpy", "memmove", "memset"}, "what the archive calls")


def compiled(name, text, *words):
    """Compiles a text of C with the header, and runs it."""
    if shutil.which("cc") is None:
        raise LeftOut("there is no C compiler")
    write(name + ".c", text.encode())
    done = subprocess.run(["cc", "-std=c99", "-Wall", "-Wextra", "-Werror", "-pedantic", "-I" + os.path.dirname(HEADER),
                           "-o", name, name + ".c", "-L" + common.FOLDER, "-lauditstore",
                           "-Wl,-rpath," + common.FOLDER], capture_output=True, text=True)
    if done.returncode:
        raise Wrong(done.stderr)
    return subprocess.run([os.path.abspath(name), *words], capture_output=True, text=True, check=True).stdout


@scene
def scene_layouts():
    """The structs have the same layout in the header and in the package, and the numbers the same names."""
    from audit_store import _library as names
    structs = {"audit_store_commitment": names.GivenCommitment, "audit_store_note": names.GivenNote,
               "audit_store_verifier": names.Verifier, "audit_store_event": names.GivenEvent,
               "audit_store_reply": names.Reply}
    prints = ""
    wanted = []
    for name, layout in structs.items():
        prints += '    printf("%%zu\\n", sizeof(struct %s));\n' % name
        wanted.append(ctypes.sizeof(layout))
        for field, _ in layout._fields_:
            prints += '    printf("%%zu\\n", offsetof(struct %s, %s));\n' % (name, field)
            wanted.append(getattr(layout, field).offset)
    for name in ("OK", "NOT_ACCEPTED", "MORE", "MISUSED", "MALFORMED", "BAD_PROOF", "PAYLOAD_MAX", "ENTRY_MAX",
                 "PLACED_PAYLOAD_MAX", "REQUEST_MAX", "NOTE_NAME", "CLOSING", "ACKNOWLEDGEMENT", "COMMITMENT",
                 "INCLUSION", "CONSISTENCY", "ENTRY", "STATE", "PLACE", "PLACED", "REFUSED"):
        prints += '    printf("%%zu\\n", (size_t)AUDIT_STORE_%s);\n' % name
        wanted.append(getattr(names, name))
    text = "#include <audit_store.h>\n#include <stdio.h>\nint main(void)\n{\n%s    return 0;\n}\n" % prints
    expect([int(line) for line in compiled("layouts", text).split()], wanted, "sizes, offsets and numbers")


@scene
def scene_sizes():
    """The header's sizes of proofs, replies, notes and states are those of the formats."""
    text = "".join('    printf("%%d\\n", (int)AUDIT_STORE_%s);\n' % name
                   for name in ("PROOF_MAX", "REPLY_MAX", "NOTE_MAX", "STATE_TEXT_MAX"))
    text = "#include <audit_store.h>\n#include <stdio.h>\nint main(void)\n{\n%s    return 0;\n}\n" % text
    longest = 32 * 24 + 32768
    note = 13 + 5 + 255 + 1 + 6 + 20 + 1 + 5 + 64 + 1
    state = 14 + 15 + 69 + 70 + 11 + 24 * 70 + 28 + 70 + 72
    expect(compiled("sizes", text).split(), [str(18 + longest), str(8 + longest), str(note), str(state)],
           "the longest proof, reply, note and state")


@scene
def scene_documentation():
    """The examples of the package's documentation do what they show."""
    for name in ("", ".checking", ".exports", ".places", ".client", ".aio", ".handler"):
        failed, _ = doctest.testmod(importlib.import_module("audit_store" + name))
        expect(failed, 0, "the examples of audit_store" + name)


@scene
def scene_import():
    """The package needs only the standard library, and is imported without asyncio and logging."""
    code = ("import sys; before = set(sys.modules); import audit_store; "
            "print(' '.join(sorted({name.split('.')[0] for name in set(sys.modules) - before})))")
    done = subprocess.run([sys.executable, "-c", code], capture_output=True, text=True, check=True)
    for name in ("asyncio", "logging"):
        if name in done.stdout.split():
            raise Wrong("importing audit_store imports " + name)


@scene
def scene_wheel():
    """A wheel of the package has all its modules, is the same each time, and is installed by pip without a network."""
    build = at_top("python", "backend.py")
    for folder in ("one", "other"):
        os.mkdir(folder)
        done = subprocess.run([sys.executable, build, folder], capture_output=True, text=True)
        expect((done.returncode, done.stderr), (0, ""), "backend.py")
    name, = os.listdir("one")
    expect(read(os.path.join("one", name)), read(os.path.join("other", name)), "a wheel that is built again")
    held = {os.path.basename(name) for name in zipfile.ZipFile(os.path.join("one", name)).namelist()
            if name.startswith("audit_store/")}
    wanted = {name for name in os.listdir(at_top("python", "audit_store")) if name.endswith((".py", ".typed"))}
    expect(held, wanted, "the modules of the wheel")
    source = shutil.copytree(at_top("python"), os.path.abspath("python"), ignore=shutil.ignore_patterns("__pycache__"))
    done = subprocess.run([sys.executable, "-m", "pip", "install", "-q", "--no-index", "--no-deps", "-t", "installed",
                           source], capture_output=True, text=True)
    if "No module named pip" in done.stderr:
        raise LeftOut("there is no pip")
    expect(done.returncode, 0, "pip: " + done.stderr)
    environment = dict(os.environ, PYTHONPATH=os.path.abspath("installed"))
    code = "import audit_store, sys; print(audit_store.__file__, audit_store.LIBRARY_VERSION)"
    done = subprocess.run([sys.executable, "-c", code], capture_output=True, text=True, env=environment)
    place = os.path.abspath("installed/audit_store/__init__.py")
    expect((done.stdout, done.stderr), (place + " 1\n", ""), "the installed package")


@scene
def scene_packages():
    """The Debian packages of the library and of the Python package have their files; a program in C is linked and run, and
    one in Python run, with what is in them."""
    if shutil.which("dpkg-deb") is None or shutil.which("cc") is None:
        raise LeftOut("there is no dpkg-deb or C compiler")
    os.mkdir("out")
    done = subprocess.run([at_top("bin", "package"), "--library", common.FOLDER, "out", program.PATH],
                          capture_output=True, text=True)
    expect((done.returncode, done.stderr), (0, ""), "bin/package")
    packages = done.stdout.split()
    expect([os.path.basename(path).split("_")[0] for path in packages],
           ["audit-store", "libauditstore1", "libauditstore-dev", "python3-audit-store"], "the packages")
    for path in packages[1:3]:
        subprocess.run(["dpkg-deb", "--extract", path, "unpacked"], check=True)
    subprocess.run(["dpkg-deb", "--extract", packages[3], "python"], check=True)
    lib = os.path.abspath("unpacked/usr/lib/x86_64-linux-gnu")
    held = sorted(os.path.relpath(os.path.join(root, name), "unpacked") for root, _, names in os.walk("unpacked")
                  for name in names)
    expect(held, ["usr/include/audit_store.h", "usr/lib/x86_64-linux-gnu/libauditstore.so",
                  "usr/lib/x86_64-linux-gnu/libauditstore.so.1",
                  "usr/lib/x86_64-linux-gnu/pkgconfig/auditstore.pc"], "their files")
    done = subprocess.run(["cc", "-Iunpacked/usr/include", "-o", "verify", os.path.join(EXAMPLES, "library", "verify.c"),
                           "-L" + lib, "-lauditstore"], capture_output=True, text=True)
    expect((done.returncode, done.stderr), (0, ""), "a program that is linked with them")
    write("key", b"0" * 64)
    done = subprocess.run(["./verify", "key", "0:" + 64 * "0"], stdin=subprocess.DEVNULL, capture_output=True,
                          env=dict(os.environ, LD_LIBRARY_PATH=lib))
    expect(done.stdout, b"verified 0\n", "the program")
    site = os.path.abspath("python/usr/lib/python3/dist-packages")
    modules = {name for name in os.listdir(at_top("python", "audit_store")) if name.endswith((".py", ".typed"))}
    expect(set(os.listdir(os.path.join(site, "audit_store"))), modules, "the modules of the package")
    found = {name: value for name, value in os.environ.items() if name != "AUDIT_STORE_LIBRARY"}
    done = subprocess.run([sys.executable, "-c", "import audit_store; print(audit_store.__file__)"], capture_output=True,
                          text=True, env=dict(found, LD_LIBRARY_PATH=lib, PYTHONPATH=site))
    expect((done.stdout, done.stderr), (os.path.join(site, "audit_store", "__init__.py") + "\n", ""), "the package")
