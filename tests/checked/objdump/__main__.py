"""Writes the texts beside it anew.
usage, in tests/: python3 -m checked.objdump LLVM_OBJDUMP      LLVM_OBJDUMP: the path of `llvm-objdump` 19
"""
import sys

from checked.objdump import write

write(sys.argv[1])
