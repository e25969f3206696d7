"""Tools around the program `vcp`: tested, and not proved."""

VERSION = "1.17"
"""The version of the tools: the release that they belong to, the first of CHANGELOG.md."""
