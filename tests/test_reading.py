#!/usr/bin/env python3
"""Vectors for what is read of sections and of descriptor lists.

Without a word: writes crates/test_reading/stdin and stdout, the vectors of table_vectors.py and of rating_vectors.py. With
--check: fails where those files are not what this script makes.
"""
import rating_vectors
import table_vectors
from written import written

written("test_reading", table_vectors.vectors + rating_vectors.vectors)
