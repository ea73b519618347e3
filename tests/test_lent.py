#!/usr/bin/env python3
"""Vectors for the shelf in lent memory: the histories of calls that test_shelf runs, with the same answers.

Without a word: writes crates/test_lent/stdin and stdout, the vectors of shelf_runs.py. With --check: fails where those files are not
what this script makes.
"""
import shelf_runs
from written import written

written("test_lent", shelf_runs.vectors)
