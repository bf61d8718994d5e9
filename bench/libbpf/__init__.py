"""libbpf beside the programs of this repository, and the inputs that both are given."""
import sys
from pathlib import Path

# Object files and types are made as those of the tests' rows are.
sys.path.append(str(Path(__file__).parents[2] / "tests"))
