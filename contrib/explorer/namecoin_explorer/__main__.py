import pathlib
import sys

# In place, the feeder and the maker of snapshots stand in folders beside this one's.
BESIDE = pathlib.Path(__file__).resolve().parents[2]
for name, module in (("namecoin_feeder", "node.py"), ("namecoin_snapshot", "name_scripts.py")):
    if (BESIDE / name / name / module).is_file():
        sys.path.insert(0, str(BESIDE / name))

from .command_line import main

if __name__ == "__main__":
    sys.exit(main())
