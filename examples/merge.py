"""What the scripts of this folder share: they run hosttrace over trace folders and read the lines of its `events`."""
import subprocess
import sys
from pathlib import Path

PROGRAM = Path(__file__).resolve().parent.parent / "hosttrace"
FIRST_LINE = "hosttrace events 1"
MILLION = 10**6


def fail(text: str, status: int = 1) -> None:
    """Ends the script with a line on standard error."""
    print(f"{Path(sys.argv[0]).name}: {text}", file=sys.stderr)
    sys.exit(status)


def add_folders(parser) -> None:
    """The words that say which events are meant."""
    parser.add_argument("folders", nargs="+", metavar="FOLDER", help="the trace of one machine; the first is host 0")
    parser.add_argument("--drift", metavar="D", help="as that of hosttrace: clocks differ in speed by D parts in a million at most (1000)")
    parser.add_argument("--hosttrace", default=PROGRAM, metavar="PATH", help="the program to run (the folder above this script's)")


def lines_of(given, command: str):
    """The lines that a command of the program prints over the folders. Where it fails, so does the script, with its status."""
    drift = [] if given.drift is None else [f"--drift={given.drift}"]
    words = [str(given.hosttrace), command, *drift, "--", *given.folders]
    try:
        with subprocess.Popen(words, stdin=subprocess.DEVNULL, stdout=subprocess.PIPE, text=True) as run:
            for line in run.stdout:
                yield line.rstrip("\n")
    except OSError as error:
        fail(f"hosttrace can't be started: {error}", 70)
    if run.returncode:
        fail(f"`hosttrace {command}` ended with status {run.returncode}", run.returncode if run.returncode > 0 else 70)


def events(given):
    """Each event of the merge: key, host, own time and the words behind: the kind and its fields. Instants are integers, of ns."""
    lines = lines_of(given, "events")
    if next(lines, None) != FIRST_LINE:
        fail("`hosttrace events` printed another text", 70)
    for line in lines:
        key, host, _, own, rest = line.split(" ", 4)
        yield int(key), int(host), int(own), rest
