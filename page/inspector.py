"""Makes the page: one file with the module inside, which opens from disk without a server."""
import base64
import gzip
import hashlib
import os
import re

HERE = os.path.dirname(os.path.realpath(__file__))
PARTS = ["library", "capture", "text", "conversation", "rows", "examples", "view"]
WORKER = ["library", "capture", "worker"]
# The module is compressed, and the page expands it.
BEGIN = """
await begin(async () => {
  const packed = Uint8Array.from(atob("@MODULE@"), (character) => character.charCodeAt(0));
  const stream = new Blob([packed]).stream().pipeThrough(new DecompressionStream("gzip"));
  return new Uint8Array(await new Response(stream).arrayBuffer());
});
"""


def read(name):
    with open(f"{HERE}/{name}", encoding="utf-8") as file:
        return file.read()


def joined(names):
    """Returns the modules as one script: without their imports, and with nothing exported."""
    script = "".join(read(f"{name}.mjs") for name in names)
    script = re.sub(r"^import [^;]*;\n", "", script, flags=re.M)
    return re.sub(r"^export ", "", script, flags=re.M)


def page(module, version):
    """Returns the text of the page around the bytes of a module."""
    packed = base64.b64encode(gzip.compress(module, 9, mtime=0)).decode()
    worker = f'<script type="text/plain" id="worker">{joined(WORKER)}</script>'
    parts = {
        "STYLE": read("style.css"),
        "VERSION": version,
        "SHA256": hashlib.sha256(module).hexdigest(),
        "SCRIPT": joined(PARTS) + BEGIN.replace("@MODULE@", packed),
    }
    text = read("inspector.html")
    for name, part in parts.items():
        text = text.replace(f"@{name}@", part)
    return text.replace('<script type="module">', worker + '\n<script type="module">')
