#!/usr/bin/env python3
"""Compares the manual page and the completions of this folder with docs/COMMANDS.md;
lorry_tools.packages.manual has it."""
import os
import sys

# The library in the folder above leaves no compiled files.
sys.dont_write_bytecode = True
sys.path.insert(0, os.path.dirname(os.path.dirname(os.path.abspath(__file__))))

from lorry_tools.packages.manual import main
from lorry_tools.running import run_tool

if __name__ == "__main__":
    run_tool("manual", main)
