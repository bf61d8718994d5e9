"""Rows of tests: files byte by byte, what is done with them, and what that has to give."""
