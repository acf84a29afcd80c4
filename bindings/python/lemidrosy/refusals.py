"""The numbers of the refusals in words, which are the library's own."""

from __future__ import annotations

from .library import library


def text(number: int) -> str:
    """What a refusal number means."""
    return str(library().refusal_text(number).decode())
