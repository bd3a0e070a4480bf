"""Archives whose bytes depend on their contents and on one time only."""
import gzip
import hashlib
import io
import lzma
import tarfile
import zipfile
from base64 import urlsafe_b64encode
from time import gmtime
from typing import NamedTuple


class Entry(NamedTuple):
    """A file or a symbolic link of an archive."""

    name: str
    data: bytes = b""
    mode: int = 0o644
    link: str = ""


def folders(entries):
    """Returns the folders above the entries, each before those in it."""
    found = set()
    for entry in entries:
        parts = entry.name.split("/")[:-1]
        found |= {"/".join(parts[: at + 1]) for at in range(len(parts))}
    return sorted(found)


def tar(entries, time, prefix=""):
    """Returns a tar archive of the entries and of their folders, all owned by root."""
    file = io.BytesIO()
    with tarfile.open(fileobj=file, mode="w", format=tarfile.GNU_FORMAT) as archive:

        def add(name, kind, mode, data=b"", link=""):
            info = tarfile.TarInfo(prefix + name)
            info.type, info.mode, info.mtime, info.size, info.linkname = kind, mode, time, len(data), link
            info.uname = info.gname = "root"
            archive.addfile(info, io.BytesIO(data))

        for name in folders(entries):
            add(name, tarfile.DIRTYPE, 0o755)
        for entry in sorted(entries):
            if entry.link:
                add(entry.name, tarfile.SYMTYPE, 0o777, link=entry.link)
            else:
                add(entry.name, tarfile.REGTYPE, entry.mode, entry.data)
    return file.getvalue()


def gz(data):
    return gzip.compress(data, mtime=0)


def ar(members, time):
    """Returns an ar archive."""
    text = b"!<arch>\n"
    for name, data in members:
        text += f"{name:<16}{time:<12}{0:<6}{0:<6}{100644:<8}{len(data):<10}`\n".encode()
        text += data + b"\n" * (len(data) % 2)
    return text


def deb(control, entries, time, more=()):
    """Returns a package for Debian. `control` has its fields, `more` further control files as pairs of name and text."""
    control["Installed-Size"] = str(sum(1 + len(it.data) // 1024 for it in entries) + len(folders(entries)))
    fields = "".join(f"{name}: {value}\n" for name, value in control.items())
    sums = "".join(f"{hashlib.md5(it.data).hexdigest()}  {it.name}\n" for it in sorted(entries) if not it.link)
    files = [Entry("control", fields.encode()), Entry("md5sums", sums.encode())]
    files += [Entry(name, text.encode()) for name, text in more]
    pack = lambda data: lzma.compress(data, preset=6)
    parts = [("control.tar.xz", pack(tar(files, time, "./"))), ("data.tar.xz", pack(tar(entries, time, "./")))]
    return ar([("debian-binary", b"2.0\n"), *parts], time)


def zip_of(entries, time):
    """Returns a zip archive, with the entries in the given order."""
    file = io.BytesIO()
    with zipfile.ZipFile(file, "w", zipfile.ZIP_DEFLATED) as archive:
        for entry in entries:
            info = zipfile.ZipInfo(entry.name, gmtime(max(time, 315532800))[:6])
            info.compress_type, info.external_attr = zipfile.ZIP_DEFLATED, (0o100000 | entry.mode) << 16
            archive.writestr(info, entry.data)
    return file.getvalue()


def wheel(name, version, tags, metadata, entries, time):
    """Returns a wheel: the entries with the metadata, the tags and the list of all files."""
    info = f"{name}-{version}.dist-info"
    about = "Wheel-Version: 1.0\nGenerator: resp\nRoot-Is-Purelib: false\n" + "".join(f"Tag: {tag}\n" for tag in tags)
    files = [*entries, Entry(f"{info}/METADATA", metadata.encode()), Entry(f"{info}/WHEEL", about.encode())]
    rows = []
    for it in files:
        digest = urlsafe_b64encode(hashlib.sha256(it.data).digest()).rstrip(b"=").decode()
        rows.append(f"{it.name},sha256={digest},{len(it.data)}\n")
    record = "".join(rows) + f"{info}/RECORD,,\n"
    return zip_of([*files, Entry(f"{info}/RECORD", record.encode())], time)
