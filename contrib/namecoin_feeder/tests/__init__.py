"""Tests of the feeder: a node and a server that do what is asked of them, and chains between the two."""
import pathlib
import sys

TOP = pathlib.Path(__file__).resolve().parents[3]
FEEDER = TOP / "contrib" / "namecoin_feeder"

# The makers of blocks, and the model of the rules.
for folder in (TOP / "bench", TOP / "checks", FEEDER):
    if str(folder) not in sys.path:
        sys.path.insert(0, str(folder))
