"""What the scripts share.

    prove, .ci/run ── gate ───────── `rt ci` on a copy, and each crate's edits beside it
                      libraries ──── what `rt ci` kept on this machine
    edits ─────────── edit_tries ─── how edits are tried, by `edit_changes`: which functions one changes
    program ───────── proved, unproved
    quick ─────────── imports ────── imports of definitions and lemmas that nothing uses
                      documents ──── links, names, excerpts of examples, and lists
    docs ──────────── definitions, laws_list, crate_uses, crate_graph
    all ───────────── script_words, crate_list; kit_copy: the kit, and its `rt` as a module
"""
from pathlib import Path

# The repository.
TOP = Path(__file__).resolve().parents[2]
