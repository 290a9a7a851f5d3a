"""Lines of scripts whose contents are kept outside the vault."""

import hashlib
import json
from typing import Any


def registered(content: bytes) -> dict[str, object]:
    """The members of a line that register a content in the place of its text."""
    return {"sha256": hashlib.sha256(content).hexdigest(), "size": len(content)}


def outside(line: dict[str, Any], most: int = 0) -> dict[str, Any]:
    """The same line; its text, if it has more bytes than that, is registered."""
    content = line.get("text", "").encode()
    if len(content) <= most:
        return line
    return {name: it for name, it in line.items() if name != "text"} | registered(content)


def script_outside(script: str, most: int) -> str:
    """The same script, with the texts that have more bytes registered."""
    return "".join(f"{json.dumps(outside(json.loads(it), most))}\n" for it in script.splitlines())
