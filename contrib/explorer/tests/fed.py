"""The chains and the node of the feeder's tests, whose package has the same name as this one: so it is loaded under another."""
import importlib
import importlib.util
import sys

from . import FEEDER

NAME = "feeder_tests"
if NAME not in sys.modules:
    folder = FEEDER / "tests"
    spec = importlib.util.spec_from_file_location(NAME, folder / "__init__.py", submodule_search_locations=[str(folder)])
    sys.modules[NAME] = importlib.util.module_from_spec(spec)
    spec.loader.exec_module(sys.modules[NAME])

chains, fake_node = (importlib.import_module(f"{NAME}.{it}") for it in ("chains", "fake_node"))
Chains, first_out, name_of, FakeNode, RpcFault = chains.Chains, chains.first_out, chains.name_of, fake_node.FakeNode, fake_node.RpcFault
