"""Tests of the package. Run: python3 -m unittest in the folder above."""
