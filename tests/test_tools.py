#!/usr/bin/env python3
"""Checks that what tools/ writes is what the repository holds:

    python3 tests/test_tools.py
"""
import os
import subprocess
import sys
import unittest

ROOT = os.path.join(os.path.dirname(os.path.abspath(__file__)), '..')


def written_by(tool, *words):
    return subprocess.run([sys.executable, os.path.join(ROOT, 'tools', tool), *words], check=True, capture_output=True, text=True).stdout


def held(*path):
    with open(os.path.join(ROOT, *path), encoding='utf-8') as file:
        return file.read()


class Tools(unittest.TestCase):
    def test_float_vectors(self):
        self.assertTrue(written_by('float_vectors.py') == held('crates', 'float_vectors', 'stdin'))

    def test_statement_vectors(self):
        self.assertTrue(written_by('statement_vectors.py') == held('crates', 'statement_vectors', 'stdin'))

    def test_statement_coverage(self):
        self.assertIn(written_by('statement_coverage.py'), held('docs', 'VECTORS.md'))


if __name__ == '__main__':
    unittest.main()
