"""Where the toolchain's own steps are: `rtlib`, beside the command `rt`, can be imported once this is."""
import pathlib
import shutil
import sys

RT = shutil.which("rt") or sys.exit("the command rt of the Rattle toolchain is in no folder of PATH")
FOLDER = pathlib.Path(RT).resolve().parent
sys.path.insert(0, str(FOLDER))
