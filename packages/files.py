"""The files of an installation: of the program, of the shared library, and for those who build with the library."""
import contextlib
import hashlib
import os
import re
import shutil
import subprocess
import sys
import tempfile
import time

from archives import Entry

HERE = os.path.dirname(os.path.realpath(__file__))
TOP = os.path.dirname(HERE)
SONAME = "libresp.so.0"
ABOUT = "share/doc/resp"
# The names of all files of an installation.
LIST = f"{ABOUT}/FILES"
# The processors that the program and the library are compiled for: by default those of `rt ci`, with which the gate proves
# and builds what it tests.
PROCESSOR = os.environ.get("RESP_PROCESSOR") or "x86-64-v2"
# The target of the library in the inspector.
WASM = "wasm64"
# The crates that are installed, with the file that each is built as.
MADE = {"resp": "resp", "resp_c": "libresp_c.a"}
EXPORTS = "RESP_0 { global: resp_*; local: *; };\n"
CC = os.environ.get("CC", "cc")
# Our reader under programs over hiredis: the calls that it exports, the numbers of its layouts, and its folder.
HIREDIS_EXPORTS = "{ global: redisReader*; local: *; };\n"
HIREDIS_LAYOUTS = (0, 1)
HIREDIS = f"{TOP}/bindings/hiredis"


def content(path):
    with open(path, "rb") as file:
        return file.read()


def version():
    """Returns the version that the header of the library has."""
    return re.search(rb'#define RESP_VERSION "(.*)"', content(f"{TOP}/include/resp.h"))[1].decode()


def call(*words):
    subprocess.run(words, check=True)


def toolchain():
    """Returns the module of rt that knows the crates, or ends."""
    rt = shutil.which("rt") or sys.exit("build: there is no rt on the path")
    sys.path.insert(0, os.path.dirname(os.path.realpath(rt)))
    sys.dont_write_bytecode = True
    import rtlib

    return rtlib


def made(name):
    """Returns the path of the program or of the library's archive."""
    return f"{TOP}/crates/{name}/out/{MADE[name]}"


def crates(tree=TOP):
    """Returns the crates of a tree as rt knows them, by their names."""
    return {it.name: it for it in toolchain().crates_below(tree)}


def sum_of(crate):
    """Returns a sum of a built program or library, and of all that it was proved and built from."""
    return f"{PROCESSOR} {crate.stamp()} {toolchain().sum_of(f'{crate.folder}/out/{MADE[crate.name]}')}\n"


def mark(tree, name):
    """Writes beside a program or library that it was proved and built from the sources of its tree."""
    crate = crates(tree)[name]
    with open(f"{crate.folder}/out/{MADE[name]}.proved", "w", encoding="ascii") as file:
        file.write(sum_of(crate))


def is_proved(tree, name):
    """Returns whether the program or library was proved and built from the sources as they are now."""
    crate = crates(tree)[name]
    return toolchain().text_of(f"{crate.folder}/out/{MADE[name]}.proved") == sum_of(crate)


def is_made(name):
    """Returns whether this tree has the program or library as `is_proved` says. If not, it takes the file that this
    machine keeps."""
    if is_proved(TOP, name):
        return True
    found = kept(name, PROCESSOR)
    if found is None:
        return False
    os.makedirs(os.path.dirname(made(name)), exist_ok=True)
    new = f"{made(name)}.{os.getpid()}"
    with open(new, "wb") as file:
        file.write(found)
    os.chmod(new, 0o755)
    os.replace(new, made(name))
    mark(TOP, name)
    return True


def place_of(name, target):
    """Returns the file in which this machine keeps the program or library that was proved and built for a target from
    the sources as they are now."""
    cache = os.environ.get("XDG_CACHE_HOME") or os.path.expanduser("~/.cache")
    sources = hashlib.sha256(f"{name} {target} {crates()[name].stamp()}".encode())
    return f"{cache}/resp/built/{sources.hexdigest()}"


def kept(name, target):
    """Returns the bytes that this machine keeps of a program or library, or None. The file begins with their sum."""
    with contextlib.suppress(OSError):
        total, _, made = content(place_of(name, target)).partition(b"\n")
        if hashlib.sha256(made).hexdigest().encode() == total:
            return made
    return None


def keep(place, made):
    """Keeps the bytes of a program or library in a file, and removes what was kept more than two weeks ago. Without a
    folder that it can write to, it keeps nothing."""
    with contextlib.suppress(OSError):
        os.makedirs(os.path.dirname(place), exist_ok=True)
        for other in os.scandir(os.path.dirname(place)):
            if time.time() - other.stat().st_mtime > 14 * 24 * 3600:
                os.remove(other)
        with open(f"{place}.{os.getpid()}", "wb") as file:
            file.write(hashlib.sha256(made).hexdigest().encode() + b"\n" + made)
        os.replace(f"{place}.{os.getpid()}", place)


def stripped(path, *words, tool="strip"):
    """Returns a file without what only a debugger needs."""
    with tempfile.TemporaryDirectory() as room:
        call(tool, *words, "-o", f"{room}/file", path)
        return content(f"{room}/file")


def shared(archive, compiler=CC, tool="strip"):
    """Returns the shared library over an archive. It exports the calls of resp.h alone."""
    with tempfile.TemporaryDirectory() as room:
        with open(f"{room}/exports", "w", encoding="ascii") as file:
            file.write(EXPORTS)
        whole = ["-Wl,--whole-archive", archive, "-Wl,--no-whole-archive"]
        hard = ["-Wl,-z,relro", "-Wl,-z,now", "-Wl,-z,noexecstack", "-Wl,--no-undefined", "-Wl,--build-id=none"]
        words = ["-shared", f"-Wl,-soname,{SONAME}", f"-Wl,--version-script,{room}/exports", *hard, *whole]
        call(compiler, *words, "-o", f"{room}/shared")
        return stripped(f"{room}/shared", "--strip-unneeded", tool=tool)


def preloaded(archive, compiler=CC, tool="strip"):
    """Returns the shared library that replaces the reader of hiredis in a process."""
    includes = [f"-I{HIREDIS}/layouts", f"-I{TOP}/include"]
    words = [compiler, "-std=c11", "-O2", "-fPIC", f"-ffile-prefix-map={TOP}=.", *includes]
    with tempfile.TemporaryDirectory() as room:
        made = [f"{room}/preload.o"]
        call(*words, "-c", f"{HIREDIS}/preload.c", "-o", made[0])
        for layout in HIREDIS_LAYOUTS:
            for name in ("read.c", "layouts/fits.c"):
                made.append(f"{room}/{os.path.basename(name)}-{layout}.o")
                call(*words, f"-DHIREDIS_LAYOUT={layout}", "-c", f"{HIREDIS}/{name}", "-o", made[-1])
        with open(f"{room}/exports", "w", encoding="ascii") as file:
            file.write(HIREDIS_EXPORTS)
        hard = ["-Wl,-z,relro", "-Wl,-z,now", "-Wl,-z,noexecstack", "-Wl,--no-undefined", "-Wl,--build-id=none"]
        linked = ["-shared", f"-Wl,--version-script,{room}/exports", "-Wl,--gc-sections", *hard, *made, archive, "-lm"]
        call(compiler, *linked, "-o", f"{room}/shared")
        return stripped(f"{room}/shared", "--strip-unneeded", tool=tool)


def hiredis_files(archive, libraries="lib", **how):
    """Returns the files that put our reader under programs over hiredis."""
    script = content(f"{HIREDIS}/resp-preload").replace(b"LIBRARIES", libraries.encode())
    return [
        Entry("bin/resp-preload", script, 0o755),
        Entry(f"{libraries}/resp/libresp-hiredis.so", preloaded(archive, **how)),
        Entry("share/resp/hiredis/read.c", content(f"{HIREDIS}/read.c")),
        Entry("share/man/man1/resp-preload.1", content(f"{HERE}/man/resp-preload.1")),
    ]


def pkg_config(libraries):
    """Returns resp.pc for a folder of libraries below the prefix. It finds the prefix from its own place."""
    up = "/".join([".."] * (libraries.count("/") + 2))
    return (
        f"prefix=${{pcfiledir}}/{up}\nlibdir=${{prefix}}/{libraries}\n\nName: resp\n"
        "Description: Reads RESP2 and RESP3, the wire protocol of Redis\n"
        f"Version: {version()}\nCflags: -I${{prefix}}/include\nLibs: -L${{libdir}} -lresp\n"
    ).encode()


def program_files(path, completions_of_zsh="share/zsh/site-functions"):
    """Returns the files of the program, below the prefix."""
    return [
        Entry("bin/resp", stripped(path), 0o755),
        Entry("share/man/man1/resp.1", content(f"{HERE}/man/resp.1")),
        Entry("share/man/man5/resp-script.5", content(f"{HERE}/man/resp-script.5")),
        Entry("share/bash-completion/completions/resp", content(f"{HERE}/completions/resp.bash")),
        Entry(f"{completions_of_zsh}/_resp", content(f"{HERE}/completions/_resp")),
        Entry("share/fish/vendor_completions.d/resp.fish", content(f"{HERE}/completions/resp.fish")),
    ]


def shared_files(archive, libraries="lib", **how):
    """Returns the file that programs need to run with the shared library."""
    return [Entry(f"{libraries}/{SONAME}", shared(archive, **how))]


def development_files(archive, libraries="lib", tool="strip"):
    """Returns the files for those who build with the library."""
    return [
        Entry(f"{libraries}/libresp.a", stripped(archive, "--strip-debug", "-D", tool=tool)),
        Entry(f"{libraries}/libresp.so", link=SONAME),
        Entry(f"{libraries}/pkgconfig/resp.pc", pkg_config(libraries)),
        Entry("include/resp.h", content(f"{TOP}/include/resp.h")),
        Entry("share/man/man3/libresp.3", content(f"{HERE}/man/libresp.3")),
    ]


def notices():
    """Returns the notices of the libraries of the kit that are linked into the program and the library."""
    rtlib, known = toolchain(), crates()
    names, text = [], "No licence has been chosen for resp yet. These are the licences of the libraries in it.\n"
    for crate in [known[name] for name in MADE]:
        for it in [*crate.below(), crate]:
            names += [name for name in it.of_kit if name not in names]
    for name in names:
        with open(f"{rtlib.KIT}/rlibs/{name}.rlib/format", encoding="utf-8") as file:
            names += [it for it in re.findall(r"^dep (\w+)$", file.read(), re.M) if it not in names]
    for name in sorted(names):
        folder = f"{rtlib.KIT}/rattle/{name}"
        found = sorted(it for it in os.listdir(folder) if re.match(r"LICEN[SC]E|NOTICE|COPYING", it))
        for file in found:
            # Of two licences that are offered, the shorter one is taken.
            if file != "LICENSE-APACHE" or "LICENSE-MIT" not in found:
                text += f"\n\n==== {name}, {file} ====\n\n{content(f'{folder}/{file}').decode()}"
    return text.encode()


def put(entries, root):
    """Writes files below a folder. A file is replaced at once, so a program that runs is not disturbed."""
    for entry in entries:
        path = f"{root}/{entry.name}"
        os.makedirs(os.path.dirname(path), exist_ok=True)
        new = f"{path}.{os.getpid()}"
        with contextlib.suppress(FileNotFoundError):
            os.remove(new)
        if entry.link:
            os.symlink(entry.link, new)
        else:
            with open(new, "wb") as file:
                file.write(entry.data)
            os.chmod(new, entry.mode)
        os.replace(new, path)


def root():
    """Returns the folder to install in: PREFIX, below DESTDIR."""
    return os.environ.get("DESTDIR", "") + os.path.abspath(os.environ.get("PREFIX") or "/usr/local")


def installed(root):
    """Returns the names of the files that were installed below a folder, and of the folders that were made for them, each
    with a slash at its end."""
    with contextlib.suppress(FileNotFoundError):
        return content(f"{root}/{LIST}").decode().splitlines()
    return []


def missing_folders(names, root):
    """Returns the folders that have to be made for files below a folder, each with a slash at its end. The folders above
    it begin with `..`."""
    found = {os.path.dirname(os.path.abspath(f"{root}/{name}")) for name in names}
    for folder in [*found]:
        while not os.path.isdir(folder):
            found.add(folder)
            folder = os.path.dirname(folder)
    return sorted(f"{os.path.relpath(it, root)}/" for it in found if not os.path.isdir(it))


def install(entries, root):
    """Installs files below a folder, in place of those that were installed there earlier, and notes them."""
    before = installed(root)
    # (an earlier version did not note that it made the folder of the list)
    names = {LIST, f"{ABOUT}/", *(it.name for it in entries)}
    names |= {*missing_folders(names, root), *(it for it in before if it.endswith("/"))}
    put([*entries, Entry(LIST, "".join(f"{name}\n" for name in sorted(names)).encode())], root)
    take_away([it for it in before if it not in names], root)


def take_away(names, root):
    """Removes files below a folder, and then folders that are empty."""
    for name in names:
        if not name.endswith("/"):
            with contextlib.suppress(FileNotFoundError):
                os.remove(f"{root}/{name}")
    folders = [os.path.abspath(f"{root}/{name}") for name in names if name.endswith("/")]
    for folder in sorted(folders, reverse=True):
        with contextlib.suppress(OSError):
            os.rmdir(folder)


def uninstall(root):
    """Removes the files that were installed below a folder, and the folders that were made for them."""
    names = installed(root) or sys.exit(f"build: resp is not installed in {root}")
    take_away(names, root)
    print(f"resp is removed from {root}")
