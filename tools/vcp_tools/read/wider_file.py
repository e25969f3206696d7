"""A file with Structured Text as controllers have it, or with PLCopen XML, as `lower` and `simulate` are given it."""
from __future__ import annotations

from pathlib import Path

from vcp_tools.files import read_bytes
from vcp_tools.program_text import tells_list
from vcp_tools.read.plcopen import is_xml, text_of_xml
from vcp_tools.read.source import Source
from vcp_tools.read.structured_text import SyntaxFault
from vcp_tools.read.wider_text import parse_wider
from vcp_tools.read.wider_tree import File
from vcp_tools.read.wider_words import told_word
from vcp_tools.refusal import Refusal


def source_and_tree(file: str | Path) -> tuple[Source, File]:
    """The text and the tree of a file, of XML the text that stands in it, line by line; a refusal with the place and the reason where it has what isn't
    taken."""
    data = read_bytes(file)
    source = Source(text_of_xml(data, str(file)).encode("utf-8") if is_xml(data) else data)
    try:
        return source, parse_wider(source.text)
    except SyntaxFault as fault:
        if tells_list(source):
            raise Refusal(f"{file}: this is an instruction list, and Structured Text is wanted: `vcp_study text {file}` writes it so") from None
        raise Refusal(f"{file}:{source.told(fault.at)}: {told_word(source, fault)}") from None
