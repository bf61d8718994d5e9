"""Damaged files, and what programs make of them."""
