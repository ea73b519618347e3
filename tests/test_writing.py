#!/usr/bin/env python3
"""Vectors for sections that are written.

Without a word: writes crates/test_writing/stdin and stdout, the vectors of writing_vectors.py. With --check: fails where those
files are not what this script makes.
"""
import writing_vectors
from written import written

written("test_writing", writing_vectors.vectors)
