"""What a browser may show of a document's content: pictures, PDF and plain text, by the bytes themselves. All else is
downloaded. So nothing that somebody put becomes a page, or a script, of this site."""

from __future__ import annotations

PICTURES = {
    b"\x89PNG\r\n\x1a\n": "image/png", b"\xff\xd8\xff": "image/jpeg", b"GIF87a": "image/gif", b"GIF89a": "image/gif",
}  # fmt: skip
PDF = b"%PDF-"
TEXT = "text/plain; charset=utf-8"
UNKNOWN = "application/octet-stream"
# Of a content that is shown: it can load nothing, run nothing, send no form, and stand in no other page.
POLICY = "default-src 'none'; frame-ancestors 'none'; form-action 'none'; base-uri 'none'"
SANDBOX = "; sandbox"  # which the browser's own view of a PDF can't be in


def _is_text(content: bytes) -> bool:
    try:
        text = content.decode("utf-8")
    except UnicodeDecodeError:
        return False
    return all(it.isprintable() or it in "\n\r\t\f\ufeff" for it in text)


def shown_as(content: bytes) -> str:
    """The type by which a content is shown; that of unknown bytes where it is only downloaded."""
    for beginning, kind in PICTURES.items():
        if content.startswith(beginning):
            return kind
    if content.startswith(PDF):
        return "application/pdf"
    return TEXT if content and _is_text(content) else UNKNOWN


def policy_of(kind: str) -> str:
    """The Content-Security-Policy of a content that is answered as that type."""
    return POLICY if kind == "application/pdf" else POLICY + SANDBOX
