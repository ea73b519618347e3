#!/usr/bin/env python3
"""Vectors for the shelf: shelves that are given whole, and histories of calls.

Without a word: writes crates/test_shelf/stdin and stdout, the vectors of shelf_rules.py and of shelf_runs.py. With --check: fails
where those files are not what this script makes.
"""
import shelf_rules
import shelf_runs
from written import written

written("test_shelf", shelf_rules.vectors + shelf_runs.vectors)
