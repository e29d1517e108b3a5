"""What the scripts of this folder share: where things are, and building the plain programs."""
import pathlib
import subprocess
import sys

HERE = pathlib.Path(__file__).resolve().parent
ROOT = HERE.parent
PROGRAM = ROOT / "crates" / "fintsaro" / "out" / "fintsaro"


def stop(text):
    print(text, file=sys.stderr)
    sys.exit(1)


def checked_program(path):
    """The path of the proved program, which must be there."""
    path = pathlib.Path(path or PROGRAM).resolve()
    if not path.is_file():
        stop(f"the program is not built: {path} is not there")
    return path


def build(source, folder):
    """Builds one Rust file of bench/reference into the folder."""
    made = pathlib.Path(folder) / pathlib.Path(source).stem
    command = ["rustc", "--edition", "2024", "-C", "opt-level=3", HERE / "reference" / source, "-o", made]
    try:
        built = subprocess.run(command).returncode == 0
    except OSError as error:
        stop(f"rustc cannot be run: {error}")
    if not built:
        stop(f"{source} could not be built")
    return made
