"""Where `scripts/lab` begins: it finds this package, and does what `main` says."""
import sys
from pathlib import Path

sys.dont_write_bytecode = True
# (in the place of this folder, whose modules aren't to be found by their short names)
sys.path[0] = str(Path(__file__).resolve().parent.parent)
from lab_parts.main import begin

if __name__ == "__main__":
    begin()
