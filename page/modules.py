"""Takes the modules out of a ready page.

    python3 page/modules.py PAGE.html OUT      writes OUT/page64.wasm, and OUT/page32.wasm if the page holds it
"""
import base64
import json
import pathlib
import re
import sys

page, out = map(pathlib.Path, sys.argv[1:])
found = re.search(r"^const MODULES = (\{.*\});$", page.read_text("utf-8"), re.M)
if not found:
    sys.exit(f"page/modules.py: {page} holds no modules")
for name, file in {"wide": "page64.wasm", "narrow": "page32.wasm"}.items():
    text = json.loads(found.group(1))[name]
    if text:
        (out / file).write_bytes(base64.b64decode(text))
