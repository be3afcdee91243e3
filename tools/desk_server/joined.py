"""The page's scripts joined into one file: a browser asks for each file over a connection of its own, and of
modules for the next ones only when it has read those that name them.

A script is a module that imports what it names, `import { say } from "./words.js";`, and exports functions
and constants where it makes them. Joined, each is a block, in which its names stay; what it exports is handed
to the blocks behind it.
"""

import re

IMPORT = re.compile(r'^import \{ (\w+(?:, \w+)*) \} from "\./([a-z]+)\.js";\n', re.M)
EXPORT = re.compile(r"^export ((?:async )?function|const) (\w+)", re.M)
# What stays of a form that isn't one of those above.
OTHER = re.compile(r"^(?:import|export)\b.*", re.M)


class NotJoined(Exception):
    """Scripts that can't be joined; says why."""


def in_order(scripts: dict[str, str], first: str) -> list[str]:
    """This script and all that it imports, by their names, each behind those that it imports itself."""
    ordered: list[str] = []

    def place(name: str, above: tuple[str, ...]) -> None:
        if name in above:
            raise NotJoined(f"{name}.js imports itself by {above[-1]}.js")
        if name not in scripts:
            raise NotJoined(f"{above[-1]}.js imports {name}.js, which isn't there")
        if name not in ordered:
            for _, imported in IMPORT.findall(scripts[name]):
                place(imported, (*above, name))
            ordered.append(name)

    place(first, ())
    return ordered


def block(name: str, script: str) -> str:
    exports = ", ".join(made for _, made in EXPORT.findall(script))
    handed = f"modules.{name} = {{ {exports} }};\n" if exports else ""
    body = IMPORT.sub(r"const { \1 } = modules.\2;\n", script)
    body = EXPORT.sub(r"\1 \2", body)
    if other := OTHER.search(body):
        raise NotJoined(f"{name}.js: {other[0]}")
    return f"{{ // {name}.js\n{body}{handed}}}\n"


def join_scripts(scripts: dict[str, str], first: str) -> str:
    """One module of these scripts, which begins as this one of them does, when all others are there."""
    blocks = [block(name, scripts[name]) for name in in_order(scripts, first)]
    return "".join(["const modules = {};\n", *blocks])
