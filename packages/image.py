"""Makes an image of the program for containers, by the specification of the Open Container Initiative: a layout in a folder,
and the same layout as a tar archive. The image has the program, the libraries that it needs, and `env`, and no shell."""
import hashlib
import json
import os
import re
import subprocess
import time

import archives
import files
from archives import Entry
from files import content

# The program's command. The proxy looks for a SIGTERM that is blocked, and the first process of a container ignores others.
COMMAND = ["/usr/bin/env", "--block-signal=TERM", "/usr/bin/resp"]
ENV = "/usr/bin/env"
USER = "65534:65534"
# How the C library finds addresses of names.
NAMES = "hosts: files dns\n"
# The packages of Debian whose files are copied, for their licences.
COPIED = ("libc6", "libgcc-s1", "coreutils")
MEDIA = "application/vnd.oci.image"


def libraries(path):
    """Returns the files that a program needs to start, each with the place where it looks for it."""
    said = subprocess.run(["ldd", path], check=True, capture_output=True, text=True).stdout
    found = re.findall(r"^\s+(?:\S+ => )?(/\S+) \(", said, re.M)
    return [Entry(it.lstrip("/"), content(os.path.realpath(it)), 0o755) for it in found]


def tree(program, documents):
    """Returns the files of the image. `documents` has files below the folder of its notices."""
    resp = Entry("usr/bin/resp", files.stripped(program), 0o755)
    needed = {it.name: it for path in (program, ENV) for it in libraries(path)}
    copied = [f"/usr/share/doc/{name}/copyright" for name in COPIED]
    notices = [Entry(it.lstrip("/"), content(it)) for it in copied if os.path.isfile(it)]
    notices += [Entry(f"usr/{files.ABOUT}/{name}", data) for name, data in documents.items()]
    return [resp, Entry(ENV.lstrip("/"), content(ENV), 0o755), *needed.values(), *notices, Entry("etc/nsswitch.conf", NAMES.encode())]


def digest(data):
    return f"sha256:{hashlib.sha256(data).hexdigest()}"


def described(kind, data, **more):
    """Returns how a manifest describes a blob."""
    return {"mediaType": f"{MEDIA}.{kind}", "digest": digest(data), "size": len(data), **more}


def coded(value):
    return json.dumps(value, sort_keys=True, separators=(",", ":")).encode()


def layout(entries, version, moment):
    """Returns the files of the layout of an image with these files."""
    layer = archives.tar(entries, moment)
    packed = archives.gz(layer)
    created = time.strftime("%Y-%m-%dT%H:%M:%SZ", time.gmtime(moment))
    labels = {"org.opencontainers.image.title": "resp", "org.opencontainers.image.version": version}
    config = coded({
        "architecture": "amd64",
        "os": "linux",
        "created": created,
        "config": {"User": USER, "Entrypoint": COMMAND, "Cmd": ["--help"], "WorkingDir": "/", "Labels": labels},
        "rootfs": {"type": "layers", "diff_ids": [digest(layer)]},
        "history": [{"created": created, "created_by": "./build image"}],
    })
    manifest = coded({
        "schemaVersion": 2,
        "mediaType": f"{MEDIA}.manifest.v1+json",
        "config": described("config.v1+json", config),
        "layers": [described("layer.v1.tar+gzip", packed)],
    })
    named = {"org.opencontainers.image.ref.name": version}
    index = coded({"schemaVersion": 2, "manifests": [described("manifest.v1+json", manifest, annotations=named)]})
    blobs = [Entry(f"blobs/{digest(it).replace(':', '/')}", it) for it in (packed, config, manifest)]
    return [Entry("oci-layout", b'{"imageLayoutVersion":"1.0.0"}'), Entry("index.json", index), *blobs]


def make(to, program, documents, moment):
    """Writes the layout of the image to a folder, and beside it the archive. Returns the path of the archive."""
    version = files.version()
    made = layout(tree(program, documents), version, moment)
    files.put(made, to)
    archive = f"{os.path.dirname(to)}/resp-{version}-oci-amd64.tar"
    files.put([Entry(os.path.basename(archive), archives.tar(made, moment))], os.path.dirname(to))
    return archive
