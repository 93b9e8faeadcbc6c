"""Adapts C as people write it to Forester's language. `adapt` (in `adapter`) does all of it; nothing here is proved.

The passes stand in modules of their own: preprocess (1), names (2), words and statements (3), expressions and
conditions (4), data (5), cells (6), shared (7), refused (8).
"""
