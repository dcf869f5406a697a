"""Tests of the explorer: a program that answers by a model, a node that is played, and readers of all kinds."""
import pathlib
import sys

TOP = pathlib.Path(__file__).resolve().parents[3]
EXPLORER, FEEDER, SNAPSHOT = (TOP / "contrib" / it for it in ("explorer", "namecoin_feeder", "namecoin_snapshot"))

# The makers of blocks, the models of the rules, and the packages that the explorer is made of.
for folder in (TOP / "bench", TOP / "checks", SNAPSHOT, FEEDER, EXPLORER):
    if str(folder) not in sys.path:
        sys.path.insert(0, str(folder))
