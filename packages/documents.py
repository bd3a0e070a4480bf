"""The pages of the packages. Their relative links lead to files of the same package."""
import os
import re

from archives import Entry
from files import ABOUT, TOP, content

# The pages for users, with the files that they show.
NAMES = ["README.md", "CHANGELOG.md", "SECURITY.md", "bench/README.md"]
FOLDERS = ["docs", "docs/proof", "docs/stunnel", "docs/kubernetes"]
BINDINGS = [f"bindings/{name}/README.md" for name in ("c", "hiredis", "node", "python", "rust")]
PROGRAMS = [f"bindings/c/{name}.c" for name in ("blocking", "command", "epoll", "events", "nodes", "pipeline")]
LEFT_OUT = ["docs/DECISIONS.md"]
# The unit of systemd for the proxy, whose program is in /usr/bin, and a sample of its settings.
UNIT, SETTINGS = "packages/systemd/resp-proxy@.service", "packages/systemd/resp-proxy.conf"
# A block of code, which ends at a line without an indent, code within a line, or a link with its text.
BLOCK = r"^```.*?^```|(?:^ {4}[^\n]*\n)+"
CODE = r"`[^`]*`"
LINK = re.compile(rf"(?ms){BLOCK}|{CODE}|!?\[(?P<text>(?:[^\]`]|{CODE})*)\]\((?P<to>[^)\s]+)\)")


def names():
    """Returns the names of the pages for users and of the files that they show, in the repository."""
    below = [f"{folder}/{name}" for folder in FOLDERS for name in sorted(os.listdir(f"{TOP}/{folder}"))]
    found = [name for name in below if os.path.isfile(f"{TOP}/{name}") and name not in LEFT_OUT]
    return [*NAMES, *found, *BINDINGS, *PROGRAMS, UNIT, SETTINGS]


def places(more=()):
    """Returns where a package has these files, by their names in the repository. `more` has other places, and further
    files of the package, as pairs of a name and a place."""
    found = {name: f"{ABOUT}/{name}" for name in names()}
    examples = {name: f"{ABOUT}/examples/{os.path.basename(name)}" for name in (UNIT, SETTINGS)}
    return {**found, **examples, **dict(more)}


def page(name, at, placed):
    """Returns a page of the repository as it is at a place of a package, which has other files where `placed` says. A
    link to any other file of the repository becomes its text."""

    def linked(found):
        to, _, anchor = (found["to"] or "").partition("#")
        if not to or re.match(r"[a-z]+:", to):
            return found[0]
        place = placed.get(os.path.normpath(os.path.join(os.path.dirname(name), to)))
        if not place:
            return found["text"]
        start, _, _ = found[0].rpartition("(")
        return f"{start}({os.path.relpath(place, os.path.dirname(at) or '.')}{'#' if anchor else ''}{anchor})"

    return LINK.sub(linked, content(f"{TOP}/{name}").decode()).encode()


def documents(placed):
    """Returns the pages for users and the files that they show, each where `placed` says."""
    return [
        Entry(placed[name], page(name, placed[name], placed) if name.endswith(".md") else content(f"{TOP}/{name}"))
        for name in names()
    ]
