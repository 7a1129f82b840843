"""Checks what is exported and imported by the Arrow C Data Interface (docs/CHECK.md)."""
from .helpers import assert_lawful, assert_releases

__all__ = ["assert_lawful", "assert_releases"]
