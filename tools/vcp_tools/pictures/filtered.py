"""A table that a reader can narrow down: without a script it is the whole table."""
from __future__ import annotations

from vcp_tools.pictures.markup import element

STYLE = """
.filter input { font: inherit; padding: 2px 6px; width: min(24em, 90%); background: var(--bg); color: var(--fg); border: 1px solid var(--dim); }
.filter input:focus, [tabindex]:focus-visible { outline: 2px solid var(--link); }
@media print { .filter { display: none; } }
"""
"""How its field looks."""
SCRIPT = """
for (const box of document.querySelectorAll(".filter")) {
  const rows = [...box.parentElement.querySelectorAll("table tr")].slice(1), field = box.querySelector("input"), told = box.querySelector("output");
  box.hidden = false;
  field.addEventListener("input", () => {
    const words = field.value.toLowerCase().split(/\\s+/).filter(Boolean);
    let left = 0;
    for (const row of rows) left += !(row.hidden = !words.every(word => row.textContent.toLowerCase().includes(word)));
    told.textContent = words.length ? `${left} of ${rows.length}` : "";
  });
}
"""
"""Shows the rows that have all words of the field."""


def filtered(name: str, inside: str) -> str:
    """A table with a field for words above it, which the script shows."""
    field = f'<label>Rows with these words: <input type="search" id="{name}-filter" autocomplete="off"></label> <output aria-live="polite"></output>'
    return element("div", f'<p class="filter" hidden>{field}</p>' + inside)
