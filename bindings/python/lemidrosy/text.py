"""Traces, halves of traces and console scripts as text, one record a line, and back. Any bytes have a text, and the text gives the same bytes."""

from __future__ import annotations

from typing import BinaryIO, Dict, Iterable, Iterator, Type

from .records import Form, HalfForm, NamedForm, TraceForm
from .scripts import ConsoleForm
from .words import Words

LINES = """\
  processes 2             the first byte
  checkpoint 1
  send 0 1                from 0 to 1; `send 0 1 as NAME` names the message
  deliver 1               the message by its number, or by its NAME
  lose 2
  recover 0 2             the processes that failed
  sweep                   a recovery where nobody failed
  record 5 0 17           kind, process and argument of a record that stands for no call
  bytes 0a 0b             one to three bytes that are left over, as the last line

A half of a run begins with `half 2` in the place of `processes 2`; in it `deliver 3 from 0` names the third message that process 0 sent, and so does `lose 3 from 0`.

A console script begins with `console 2`; each call has its caller before it, and `short` where its lists are one entry too short:

  operator: send 0 1      also checkpoint, deliver, lose, recover, sweep
  owner 0,2: list         the owner of processes 0 and 2; `owner -` owns none
  viewer short: counts
  operator: line 0 2      the line for a failed set, which may be empty
  operator: earliest 1:3  through checkpoint 3 of process 1
  operator: start 4
  call 0000000a00000000   eight bytes that stand for no call

What follows a # is a comment.
"""
"""What the lines of a text are."""

FORMS: Dict[str, Type[Form]] = {form.heading: form for form in (TraceForm, HalfForm, ConsoleForm)}
"""The forms by the word that their first line begins with."""

_BLOCK = 1 << 15


def text_of(source: BinaryIO, heading: str = TraceForm.heading, names: bool = False) -> Iterator[str]:
    """The lines of what a file holds: a trace, a half or a console script; of a trace with names of messages, if they are asked for."""
    form = NamedForm() if names else FORMS[heading]()
    held = source.read(1)
    if not held:
        return
    yield f"{form.heading} {held[0]}"
    form.start(held[0])
    held, block = b"", source.read(_BLOCK)
    while block:
        held += block
        whole = len(held) // form.size * form.size
        for place in range(0, whole, form.size):
            yield form.text(held[place : place + form.size])
        held, block = held[whole:], source.read(_BLOCK)
    if held:
        yield "bytes " + held.hex(" ")


def bytes_of(lines: Iterable[str]) -> Iterator[bytes]:
    """The bytes that lines stand for: the first byte, then the parts, then what is left over. Bad text raises a `TextError`."""
    written = (words for words in (Words(number, line) for number, line in enumerate(lines, 1)) if len(words))
    first = next(written, None)
    if first is None:
        return
    form = _begun(first)
    count = first.number("the first byte, the count of processes", 255)
    first.end()
    form.start(count)
    yield bytes([count])
    for words in written:
        if words.next() == "bytes":
            yield _left_over(words, form.size)
            break
        yield form.part(words)
    for words in written:
        raise words.error("nothing after the bytes that are left over")


def _begun(words: Words) -> Form:
    """The form of a text by its first line."""
    heading = words.next()
    if heading not in FORMS:
        raise words.error("a first line: " + ", ".join(f"{name} N" for name in FORMS))
    return FORMS[words.word("a heading")]()


def _left_over(words: Words, size: int) -> bytes:
    """Bytes that are fewer than a part."""
    words.literal("bytes")
    left = b""
    while len(words) or not left:
        if len(left) == size - 1:
            raise words.error(f"at most {size - 1} bytes")
        left += bytes([words.byte()])
    return left
