#!/usr/bin/env python3
"""Checks what is exported by the Arrow C Data Interface: its layout, and its lifetimes (docs/CHECK.md)."""
import sys

from arrow_check.cli import main

if __name__ == "__main__":
    sys.exit(main())
