"""Makes of the page and its modules one file, which a browser opens without a server: what it loads stands in it as data."""

import base64
import glob
import json
import os
import re


def text_of(path):
    with open(path, encoding="utf-8") as file:
        return file.read()


def data_of(kind, data):
    return f"data:{kind};base64,{base64.b64encode(data).decode()}"


def exchanged(text, old, new):
    """The text with this part, which stands in it once, in another form."""
    if text.count(old) != 1:
        raise ValueError(f"{old} stands {text.count(old)} times in the page")
    return text.replace(old, new)


def script(path, name_of):
    """A script that imports others by the names that they are given."""
    return re.sub(r'from "\./(\w+\.js)"', lambda found: f'from "{name_of(found[1])}"', text_of(path))


def script_alone(web, name):
    """A script with all that it imports, as data. A worker has no names for its imports."""
    return data_of("text/javascript", script(os.path.join(web, name), lambda other: script_alone(web, other)).encode())


def scripts(web, modules):
    """Each script of the page by its name."""
    named = {os.path.basename(path): script(path, lambda other: f"minimate/{other}") for path in glob.glob(os.path.join(web, "*.js"))}
    del named["offline.js"]
    for path in modules:
        with open(path, "rb") as module:
            data = data_of("application/wasm", module.read())
        named["library.js"] = exchanged(named["library.js"], f'"out/{os.path.basename(path)}"', f'"{data}"')
    worker = f'"{script_alone(web, "worker.js")}"'
    named["solver.js"] = exchanged(named["solver.js"], 'new URL("worker.js", import.meta.url)', worker)
    return {f"minimate/{name}": data_of("text/javascript", text.encode()) for name, text in sorted(named.items())}


def page(web, modules):
    """The whole page."""
    text = re.sub(r"<script>\n.*?</script>\n", "", text_of(os.path.join(web, "index.html")), flags=re.S)
    style = f"<style>\n{text_of(os.path.join(web, 'style.css'))}</style>"
    text = exchanged(text, '<link rel="stylesheet" href="style.css">', style)
    names = json.dumps({"imports": scripts(web, modules)}, indent=0)
    begin = f'<script type="importmap">{names}</script>\n<script type="module">import "minimate/page.js";</script>'
    return exchanged(text, '<script type="module" src="page.js"></script>', begin)
