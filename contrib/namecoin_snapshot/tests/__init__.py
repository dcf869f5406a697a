"""Tests of the maker of snapshots: files as nodes write them, and odd ones, made by code that shares nothing with the reader."""
import pathlib
import sys

TOP = pathlib.Path(__file__).resolve().parents[3]
SNAPSHOT, FEEDER = TOP / "contrib" / "namecoin_snapshot", TOP / "contrib" / "namecoin_feeder"

# The makers of scripts, the models of the rules and of snapshots, and the feeder, by which the node is asked.
for folder in (TOP / "bench", TOP / "checks", FEEDER, SNAPSHOT):
    if str(folder) not in sys.path:
        sys.path.insert(0, str(folder))
