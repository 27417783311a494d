#!/usr/bin/env python3
"""What today's Rattle asks of each crate's sources. Once, at the top of the repository, after spell.py.

`#[derive(Drop)]`, which port.py wrote on every type, becomes `#[derive(Clone, Copy)]`: in the older Rattle each of them,
small and plain, could be copied. `#![tactic(auto)]` comes near the head of each root file, behind its comment."""
import pathlib, re

for path in sorted(pathlib.Path("crates").glob("*/src/*.rt")):
    text = path.read_text()
    new = text.replace("#[derive(Drop)]", "#[derive(Clone, Copy)]")
    if path.name in ("lib.rt", "main.rt") and "#![tactic(auto)]" not in new:
        head = re.match(r"(?://[^\n]*\n)*", new).group(0)
        new = head + "#![tactic(auto)]\n" + ("" if new[len(head):].startswith("\n") else "\n") + new[len(head):]
    if new != text:
        path.write_text(new)
