"""Makes the packages of the program and of the library, in a folder: packages.make(folder, build_library), or
packages.release(folder, build_library) with what a release has besides them."""
import hashlib
import os
import re
import shutil
import subprocess
import sys
import sysconfig
import tempfile
from email.utils import formatdate

import archives
import documents
import files
import inspector
from archives import Entry
from files import HERE, TOP, content

SUMMARY = "Reads RESP2 and RESP3, the wire protocol of Redis"
LONG = " The parser is proved to follow the grammar of the protocol, in whatever\n pieces the input arrives."
PYTHON_PARTS = ["__init__.py", "__init__.pyi", "py.typed", "redis_parser.py"]
PYTHON = ["_resp.c", "bytes.h", "older.h", "values.h", "setup.py", "MANIFEST.in", "test.py", "redis_py.py", "README.md",
          *(f"src/resp/{it}" for it in PYTHON_PARTS)]
RUST = ["Cargo.toml", "README.md", "build.rs"]
# The processors with a package of the library: the name for Debian, for rt, and for the tools of gcc.
OTHER = ("arm64", "aarch64-unknown-linux-gnu", "aarch64-linux-gnu")
INSPECTOR = "share/resp/inspector.html"
# Who maintains the packages, unless DEBFULLNAME and DEBEMAIL say so, as for Debian's tools: the administrator of the
# machine where they are installed.
MAINTAINER = "Local administrator", "postmaster@localhost"
# The versions of glibc that a tag of a wheel names, with the older name of the tag.
MANYLINUX = {(2, 5): "manylinux1", (2, 12): "manylinux2010", (2, 17): "manylinux2014", (2, 28): "", (2, 34): ""}


def moment():
    """Returns the time of all files: SOURCE_DATE_EPOCH, or the time of the last commit."""
    given = os.environ.get("SOURCE_DATE_EPOCH")
    return int(given or said("git", "-C", TOP, "log", "-1", "--format=%ct") or 0)


def said(*words):
    how = {"stdout": subprocess.PIPE, "stderr": subprocess.DEVNULL, "text": True}
    return subprocess.run(words, check=False, **how).stdout.strip()


def libc_needed(data):
    """Returns the version of the C library that a program or a shared library needs."""
    found = re.findall(rb"GLIBC_(\d+(?:\.\d+)+)\0", data)
    return max(found, key=lambda it: [*map(int, it.split(b"."))], default=b"2.2.5").decode()


def provenance(others):
    """Returns what was packaged: the commit, the toolchain, the processors that the program and the library were built
    for, with the other targets of the library, and the crates that are proved, each with a sum of its sources, of the
    toolchain and of the crates below it."""
    commit = said("git", "-C", TOP, "rev-parse", "HEAD") or "unknown"
    changed = said("git", "-C", TOP, "status", "--porcelain", "--untracked-files=no")
    known = files.crates()
    crates = {it.name: it for name in files.MADE for it in [*known[name].below(), known[name]]}
    lines = [f"commit {commit}{' with changes' if changed else ''}", f"toolchain {said('rt', 'version')}"]
    lines += [f"built resp {files.PROCESSOR}", *(f"built libresp {it}" for it in [files.PROCESSOR, *others])]
    lines += [f"proved {name} {crates[name].stamp()}" for name in sorted(crates)]
    return "".join(f"{line}\n" for line in lines).encode()


class Debian:
    """Makes the packages for Debian."""

    def __init__(self, version, time, licences):
        self.version, self.time, self.licences = version, time, licences
        name, address = (os.environ.get(it) for it in ("DEBFULLNAME", "DEBEMAIL"))
        self.maintainer = f"{name or MAINTAINER[0]} <{address or MAINTAINER[1]}>"

    def package(self, name, processor, section, summary, depends, entries, more=()):
        """Returns the file name and the text of a package of these files below /usr."""
        control = {
            "Package": name,
            "Version": self.version,
            "Architecture": processor,
            "Maintainer": self.maintainer,
            "Section": section,
            "Priority": "optional",
            "Depends": depends,
            "Description": f"{summary}\n{LONG}",
        }
        if name != "resp":
            control["Source"] = "resp"
        if section != "utils":
            control["Multi-Arch"] = "same"
        about = f"share/doc/{name}"
        log = f"resp ({self.version}) unstable; urgency=low\n\n  * CHANGELOG.md in the package resp has all changes.\n\n"
        log += f" -- {self.maintainer}  {formatdate(self.time)}\n"
        zipped = [self.zipped(it) for it in [*entries, Entry(f"{about}/changelog", log.encode())]]
        whole = [it._replace(name=f"usr/{it.name}") for it in [*zipped, Entry(f"{about}/copyright", self.licences)]]
        return f"{name}_{self.version}_{processor}.deb", archives.deb(control, whole, self.time, more)

    @staticmethod
    def zipped(entry):
        """Returns a manual page or a list of changes compressed, as Debian wants it."""
        if "/man/" in entry.name or entry.name.endswith("/changelog"):
            return Entry(f"{entry.name}.gz", archives.gz(entry.data))
        return entry

    def libraries(self, processor, triple, archive, **how):
        """Yields the packages of the library for a processor."""
        place = f"lib/{triple}"
        shared = files.shared_files(archive, place, **how)
        more = [("shlibs", f"libresp 0 libresp0 (>= {self.version})\n"), ("triggers", "activate-noawait ldconfig\n")]
        libc = f"libc6 (>= {libc_needed(shared[0].data)})"
        yield self.package("libresp0", processor, "libs", f"{SUMMARY} (library)", libc, shared, more)
        tools = {name: how[name] for name in how if name == "tool"}
        built = files.development_files(archive, place, **tools)
        depends = f"libresp0 (= {self.version})"
        yield self.package("libresp-dev", processor, "libdevel", f"{SUMMARY} (development)", depends, built)
        reader = files.hiredis_files(archive, place, **how)
        about = Entry("share/doc/libresp-hiredis/README.md", documents.page("bindings/hiredis/README.md", "README.md", {}))
        libc = f"libc6 (>= {libc_needed(reader[1].data)})"
        yield self.package("libresp-hiredis", processor, "utils", f"{SUMMARY} (under hiredis)", libc, [*reader, about])

    def program(self, path, more):
        """Returns the package of the program, with these further files."""
        entries = files.program_files(path, "share/zsh/vendor-completions")
        depends = f"libc6 (>= {libc_needed(entries[0].data)}), libgcc-s1"
        placed = documents.places([(documents.UNIT, f"lib/systemd/system/{os.path.basename(documents.UNIT)}")])
        entries += [*documents.documents(placed), *more]
        return self.package("resp", "amd64", "utils", f"{SUMMARY} (program)", depends, entries)


def manylinux(module):
    """Returns the names of the oldest systems for x86-64 that have the C library that a module needs."""
    needed = tuple(map(int, libc_needed(module).split(".")))[:2]
    version = min(it for it in MANYLINUX if it >= needed)
    return [f"{name}_x86_64" for name in (f"manylinux_{version[0]}_{version[1]}", MANYLINUX[version]) if name]


def wheel(version, time, archive):
    """Returns the file name and the text of the wheel: the package with the library inside."""
    with tempfile.TemporaryDirectory() as room:
        source = f"{TOP}/bindings/python"
        words = ["-shared", "-fPIC", "-O3", "-fno-plt", "-DNDEBUG", f"-ffile-prefix-map={source}=.", "-Wl,--build-id=none"]
        words += ["-Wl,-z,relro", "-Wl,-z,now", f"-I{sysconfig.get_path('include')}", f"-I{TOP}/include"]
        hidden = "-Wl,--exclude-libs,ALL"
        files.call(files.CC, *words, f"{source}/_resp.c", archive, hidden, "-o", f"{room}/_resp.abi3.so")
        module = Entry("resp/_resp.abi3.so", files.stripped(f"{room}/_resp.abi3.so", "--strip-unneeded"), 0o755)
        parts = [Entry(f"resp/{it}", content(f"{source}/src/resp/{it}")) for it in PYTHON_PARTS]
    systems = manylinux(module.data)
    tags = [f"cp38-abi3-{it}" for it in systems]
    packed = archives.wheel("resp", version, tags, metadata(version, {}), [*parts, module], time)
    return f"resp-{version}-cp38-abi3-{'.'.join(systems)}.whl", packed


def metadata(version, placed):
    """Returns the description of the module for Python, in a package that has files of the repository where `placed` says."""
    about = documents.page("bindings/python/README.md", "README.md", placed).decode()
    return (
        f"Metadata-Version: 2.1\nName: resp\nVersion: {version}\nSummary: {SUMMARY}\nRequires-Python: >=3.8\n"
        f"Description-Content-Type: text/markdown\n\n{about}"
    )


def sources(source, names, folder):
    """Returns files below a folder of the repository, below another folder. Links of its pages lead to these files."""
    placed = {f"{source}/{name}": f"{folder}/{name}" for name in names}
    pages = {name: documents.page(name, placed[name], placed) for name in placed if name.endswith(".md")}
    return [Entry(placed[name], pages.get(name) or content(f"{TOP}/{name}")) for name in placed]


def source_of_python(version, time, archive):
    """Returns the file name and the text of the source distribution, with the library inside."""
    folder = f"resp-{version}"
    entries = sources("bindings/python", PYTHON, folder)
    entries += [
        Entry(f"{folder}/PKG-INFO", metadata(version, {}).encode()),
        Entry(f"{folder}/libresp/lib/libresp.a", files.stripped(archive, "--strip-debug", "-D")),
        Entry(f"{folder}/libresp/include/resp.h", content(f"{TOP}/include/resp.h")),
    ]
    return f"{folder}.tar.gz", archives.gz(archives.tar(entries, time))


def source_of_rust(version, time, archive):
    """Returns the file name and the text of the crate for cargo, with the library inside."""
    folder, source = f"resp-{version}", "bindings/rust"
    names = [*RUST, *(f"{part}/{it}" for part in ("src", "tests") for it in sorted(os.listdir(f"{TOP}/{source}/{part}")))]
    entries = sources(source, names, folder)
    entries.append(Entry(f"{folder}/lib/x86_64-linux/libresp.a", files.stripped(archive, "--strip-debug", "-D")))
    return f"{folder}.crate", archives.gz(archives.tar(entries, time))


def tarball(version, time, entries):
    """Returns the file name and the text of the archive for any Linux."""
    name = f"resp-{version}-x86_64-linux"
    return f"{name}.tar.gz", archives.gz(archives.tar([it._replace(name=f"{name}/{it.name}") for it in entries], time))


def other_libraries(debian, archive):
    """Returns the packages of the library for the other processor."""
    processor, _, triple = OTHER
    with tempfile.TemporaryDirectory() as room:
        with open(f"{room}/libresp.a", "wb") as file:
            file.write(archive)
        tools = {"compiler": f"{triple}-gcc", "tool": f"{triple}-strip"}
        return [*debian.libraries(processor, triple, f"{room}/libresp.a", **tools)]


def packed(build_library):
    """Returns the names and the bytes of all packages. `build_library` returns the archive of the library for a target of
    rt."""
    version, time = files.version(), moment()
    program, archive = (files.made(name) for name in files.MADE)
    if not all(files.is_proved(TOP, name) for name in files.MADE):
        sys.exit("packages: the program or the library is not proved as it is now")
    processor, target, triple = OTHER
    others = [files.WASM, *([target] if shutil.which(f"{triple}-gcc") else [])]
    built = {it: build_library(it) for it in others}
    licences, origin = files.notices(), provenance(others)
    placed = documents.places([("include/resp.h", "include/resp.h")])
    page = Entry(INSPECTOR, inspector.page(built[files.WASM], version).encode())
    more = [page, Entry(f"{files.ABOUT}/PROVENANCE", origin)]
    whole = [*files.program_files(program), *files.shared_files(archive), *files.development_files(archive), *more]
    whole += files.hiredis_files(archive)
    whole += [*documents.documents(placed), Entry(f"{files.ABOUT}/NOTICES", licences)]
    whole += [Entry("README.md", documents.page("README.md", "README.md", placed)), Entry("PROVENANCE", origin)]
    whole.append(Entry("install.sh", content(f"{HERE}/install.sh"), 0o755))
    debian = Debian(version, time, licences)
    if target not in built:
        print(f"packages: skipped {processor}: {triple}-gcc is not installed", file=sys.stderr)
    return [
        tarball(version, time, whole),
        debian.program(program, more),
        *debian.libraries("amd64", "x86_64-linux-gnu", archive),
        wheel(version, time, archive),
        source_of_python(version, time, archive),
        source_of_rust(version, time, archive),
        *(other_libraries(debian, built[target]) if target in built else []),
        (os.path.basename(INSPECTOR), page.data),
        ("PROVENANCE", origin),
    ]


def changes(version):
    """Returns the part of CHANGELOG.md for a version, with the changes since then if there are any."""
    text = documents.page("CHANGELOG.md", "CHANGES.md", {}).decode()
    found = re.search(rf"(?ms)^(## Unreleased$.*?)?^## {re.escape(version)}\b.*?(?=^## |\Z)", text)
    if not found:
        sys.exit(f"packages: CHANGELOG.md has no part for {version}")
    if found[1]:
        print("packages: CHANGES.md begins with changes that are in no version yet", file=sys.stderr)
    return f"# Changes of resp {version}\n\n{found[0].rstrip()}\n".encode()


def write(to, written):
    """Writes files to a folder that has nothing else, with their sums."""
    shutil.rmtree(to, ignore_errors=True)
    os.makedirs(to)
    sums = "".join(f"{hashlib.sha256(data).hexdigest()}  {name}\n" for name, data in sorted(written))
    for name, data in [*written, ("SHA256SUMS", sums.encode())]:
        with open(f"{to}/{name}", "wb") as file:
            file.write(data)
        print(f"{len(data):9,} {name}")


def make(to, build_library):
    """Writes all packages to a folder."""
    write(to, packed(build_library))


def release(to, build_library):
    """Writes all packages to a folder, with the changes of this version and a page on how to install and verify them."""
    page = documents.page("docs/install.md", "INSTALL.md", {})
    write(to, [*packed(build_library), ("CHANGES.md", changes(files.version())), ("INSTALL.md", page)])
