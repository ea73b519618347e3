#!/usr/bin/env python3
"""Vectors for texts: of a compressed segment, of a field, of a section, of all titles of a section.

Without a word: writes crates/test_text/stdin and stdout, the vectors of segment_vectors.py, text_vectors.py,
section_text_vectors.py and title_vectors.py. With --check: fails where those files are not what this script makes.
"""
import segment_vectors
import section_text_vectors
import text_vectors
import title_vectors
from written import written

written("test_text", segment_vectors.vectors + text_vectors.vectors + section_text_vectors.vectors
        + title_vectors.vectors)
