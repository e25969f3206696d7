"""PLCopen XML (TC6), as CODESYS, TwinCAT and Beremiz export it, as Structured Text whose lines are those of the XML.

Types, interfaces and bodies in Structured Text are read; a body in another language is a refusal.
"""
from __future__ import annotations

from dataclasses import dataclass, field
from typing import Iterator
from xml.parsers import expat

from vcp_tools.refusal import Refusal

_SECTIONS = {"localVars": "VAR", "inputVars": "VAR_INPUT", "outputVars": "VAR_OUTPUT", "inOutVars": "VAR_IN_OUT", "tempVars": "VAR_TEMP",
             "externalVars": "VAR_EXTERNAL", "globalVars": "VAR_GLOBAL"}
_KINDS = {"program": "PROGRAM", "function": "FUNCTION", "functionBlock": "FUNCTION_BLOCK"}
_ATTRIBUTES = {"constant": "CONSTANT", "retain": "RETAIN", "nonretain": "NON_RETAIN", "persistent": "PERSISTENT"}


@dataclass
class Element:
    """An element: its name without a namespace, its attributes, the line in which it begins, what is in it, and its own text with the line of that."""

    name: str
    attributes: dict[str, str]
    line: int
    inner: list["Element"] = field(default_factory=list)
    text: str = ""
    text_line: int = 0

    def all(self, name: str) -> Iterator["Element"]:
        """The elements of a name that stand in this one, at any depth."""
        for it in self.inner:
            if it.name == name:
                yield it
            yield from it.all(name)

    def first(self, name: str) -> "Element | None":
        """The first of them that stands directly in this one."""
        return next((it for it in self.inner if it.name == name), None)

    def whole_text(self) -> tuple[str, int]:
        """The text of this element and of those in it, blank ones left aside, and the line in which it begins."""
        found = [(text, line) for text, line in ((self.text, self.text_line), *(it.whole_text() for it in self.inner)) if text.strip()]
        return "".join(text for text, _ in found), found[0][1] if found else self.line


class _Lines:
    """A text that is written at given lines, or behind them where they are past."""

    def __init__(self) -> None:
        self.parts: list[str] = []
        self.line = 1

    def put(self, line: int, text: str) -> None:
        """Writes a text at a line."""
        if line > self.line:
            self.parts.append("\n" * (line - self.line))
            self.line = line
        self.parts.append(text + " ")
        self.line += text.count("\n")


def is_xml(data: bytes) -> bool:
    """Whether a file is one of XML."""
    return data.lstrip(b"\xef\xbb\xbf \t\r\n")[:5] in (b"<?xml", b"<proj")


def read_elements(data: bytes, file: str) -> Element:
    """The elements of a file; a refusal where it is no XML."""
    top = Element("", {}, 1)
    stack = [top]
    parser = expat.ParserCreate()

    def begins(name: str, attributes: dict[str, str]) -> None:
        made = Element(name.rpartition(":")[2], attributes, parser.CurrentLineNumber)
        stack[-1].inner.append(made)
        stack.append(made)

    def ends(_: str) -> None:
        stack.pop()

    def text(part: str) -> None:
        stack[-1].text_line = stack[-1].text_line or parser.CurrentLineNumber
        stack[-1].text += part

    parser.StartElementHandler, parser.EndElementHandler, parser.CharacterDataHandler = begins, ends, text
    try:
        parser.Parse(data, True)
    except expat.ExpatError as error:
        raise Refusal(f"{file}:{error.lineno}:{error.offset + 1}: this is no XML: {expat.errors.messages[error.code]}") from None
    return top


def text_of_xml(data: bytes, file: str) -> str:
    """The Structured Text of a file; a refusal where it has none, or a body in another language."""
    top = read_elements(data, file)
    lines = _Lines()
    found = 0
    for it in _in_order(top):
        if it.name == "dataType":
            base = it.first("baseType")
            if base is not None:
                lines.put(it.line, f"TYPE {_name(it)} :")
                _put_type(lines, base)
                lines.put(it.line, f"{_initial(it)}; END_TYPE")
        elif it.name == "globalVars":
            _put_block(lines, it)
        else:
            found += 1
            _put_unit(lines, it, file)
    if not found:
        raise Refusal(f"{file}: there is no POU in this file")
    return "".join(lines.parts)


def _in_order(top: Element) -> Iterator[Element]:
    """The types, the units and the blocks of global variables, in order."""
    for it in top.inner:
        if it.name in ("dataType", "pou"):
            yield it
        elif it.name == "globalVars":
            yield it
        else:
            yield from _in_order(it)


def _put_unit(lines: _Lines, unit: Element, file: str) -> None:
    kind = _KINDS.get(unit.attributes.get("pouType", ""))
    if kind is None:
        raise Refusal(f"{file}:{unit.line}: `{_name(unit)}` is no program, function or function block")
    body = unit.first("body")
    text = None if body is None else body.first("ST")
    if text is None:
        language = body.inner[0].name if body is not None and body.inner else "no language"
        raise Refusal(f"{file}:{unit.line}: the body of `{_name(unit)}` is in {language}, and Structured Text is wanted")
    interface = unit.first("interface")
    lines.put(unit.line, f"{kind} {_name(unit)}")
    if interface is not None:
        result = interface.first("returnType")
        if kind == "FUNCTION" and result is not None:
            lines.put(result.line, ":")
            _put_type(lines, result)
        for it in interface.inner:
            if it.name in _SECTIONS:
                _put_block(lines, it)
    written, line = text.whole_text()
    lines.put(line, written)
    lines.put(lines.line, f"\nEND_{kind}" if "//" in written.rpartition("\n")[2] else f"END_{kind}")


def _put_block(lines: _Lines, block: Element) -> None:
    attributes = [word for name, word in _ATTRIBUTES.items() if block.attributes.get(name) == "true"]
    lines.put(block.line, " ".join((_SECTIONS[block.name], *attributes)))
    for it in block.inner:
        if it.name == "variable":
            _put_variable(lines, it)
    lines.put(lines.line, "END_VAR")


def _put_variable(lines: _Lines, variable: Element) -> None:
    address = variable.attributes.get("address", "")
    lines.put(variable.line, f"{_name(variable)}{f' AT {address}' if address else ''} :")
    kind = variable.first("type")
    if kind is not None:
        _put_type(lines, kind)
    lines.put(variable.line, f"{_initial(variable)};")


def _put_type(lines: _Lines, holder: Element) -> None:
    """The type that stands in an element."""
    it = holder.inner[0] if holder.inner else holder
    if it.name == "derived":
        lines.put(it.line, _name(it))
    elif it.name == "array":
        ranges = ", ".join(f"{one.attributes.get('lower')}..{one.attributes.get('upper')}" for one in it.inner if one.name == "dimension")
        lines.put(it.line, f"ARRAY [{ranges}] OF")
        base = it.first("baseType")
        if base is not None:
            _put_type(lines, base)
    elif it.name == "struct":
        lines.put(it.line, "STRUCT")
        for variable in it.inner:
            if variable.name == "variable":
                _put_variable(lines, variable)
        lines.put(lines.line, "END_STRUCT")
    elif it.name == "enum":
        values = [f"{_name(one)}{' := ' + one.attributes['value'] if one.attributes.get('value') else ''}" for one in it.all("value")]
        lines.put(it.line, f"({', '.join(values)})")
    elif it.name in ("subrangeSigned", "subrangeUnsigned"):
        ends, base = it.first("range"), it.first("baseType")
        if base is not None and ends is not None:
            _put_type(lines, base)
            lines.put(it.line, f"({ends.attributes.get('lower')}..{ends.attributes.get('upper')})")
    else:
        lines.put(it.line, it.name.upper())


def _initial(holder: Element) -> str:
    """The initial value that stands in an element, with its `:=`; empty where there is none."""
    initial = holder.first("initialValue")
    return f" := {_value(initial.inner[0])}" if initial is not None and initial.inner else ""


def _value(it: Element) -> str:
    if it.name == "simpleValue":
        return it.attributes.get("value", "")
    values = [one for one in it.inner if one.name == "value"]
    if it.name == "structValue":
        return "(" + ", ".join(f"{one.attributes.get('member')} := {_value(one.inner[0])}" for one in values) + ")"
    repeated = [(one.attributes.get("repetitionValue"), _value(one.inner[0])) for one in values]
    return "[" + ", ".join(f"{times}({text})" if times else text for times, text in repeated) + "]"


def _name(it: Element) -> str:
    return it.attributes.get("name", "")
