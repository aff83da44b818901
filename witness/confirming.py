"""Hands an order to `confirm`, whose checker is proved, and which writes the lines of the run where that says yes."""
import os
import pathlib
import subprocess

HERE = pathlib.Path(__file__).resolve().parent
BUILT = HERE.parent / "crates" / "confirm" / "out" / "confirm"


def confirm():
    """The program, or None: it stands beside this one where it is installed."""
    for path in (HERE / "confirm", BUILT, pathlib.Path(os.environ.get("CONFIRM", ""))):
        if path.is_file() and os.access(path, os.X_OK):
            return path
    return None


def order_text(text, made):
    """The log, and each event with the number of its call."""
    return "".join([text, "order\n", *(f"{number} {line}\n" for number, line in made)])


def confirmed(program, order):
    """The lines of the run, or None; and what the program said beside."""
    ran = subprocess.run([program], input=order, capture_output=True, text=True)
    return (ran.stdout if ran.returncode == 0 else None), ran.stderr.strip()
