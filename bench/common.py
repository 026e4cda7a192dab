"""What the scripts of bench/ and .ci/ share: where things lie, what builds the programs, and how runs are measured."""
import os
import re
import shutil
import subprocess
import sys
import time
from pathlib import Path

TOP = Path(__file__).resolve().parent.parent
EXAMPLES = TOP / "examples/three-hosts"
PEAK_MIB = 64
SKIPPED = 77  # the status of a check that lacks something here
EVENTS_PEAK = 200  # bytes an event that the command events may take at the peak, beside the files and those MiB

# How the script hosttrace starts the program: the C library takes memory in large pages and in large steps.
TUNABLES = re.search(r"GLIBC_TUNABLES-([^}]*)}", (TOP / "hosttrace").read_text())[1]


def built(program: str, variable: str) -> Path:
    """A proved program of this repository, which is built where it isn't; an environment variable may name another one, which isn't
    built. A build that fails ends this script, with status 70."""
    if variable in os.environ:
        return Path(os.environ[variable]).resolve()
    status = subprocess.run([sys.executable, TOP / ".build/prove.py", program], stdout=subprocess.DEVNULL).returncode
    if status != 0:
        print(f"{sys.argv[0]}: {program} couldn't be built", file=sys.stderr)
        sys.exit(status)
    return TOP / "crates" / program / "out" / program


def hosttrace() -> Path:
    """The program."""
    return built("hosttrace_cli", "HOSTTRACE")


def hosttrace_bench() -> Path:
    """The program that times single calls, and writes made traces into folders."""
    return built("hosttrace_bench", "HOSTTRACE_BENCH")


def trace_cases() -> Path:
    """The program that prints what crates answer of bytes."""
    return built("trace_cases", "TRACE_CASES")


def environment(command: list) -> dict:
    """That of a command: the program's has what the script sets, and a peer's hasn't."""
    own = Path(command[0]).resolve() == Path(os.environ.get("HOSTTRACE", TOP / "crates/hosttrace_cli/out/hosttrace_cli")).resolve()
    return {"GLIBC_TUNABLES": TUNABLES, **os.environ} if own else dict(os.environ)


def compiled(source: str, folder: Path) -> Path:
    """A plain Rust program of bench/, compiled into a folder."""
    folder.mkdir(parents=True, exist_ok=True)
    program = folder / source.removesuffix(".rs")
    subprocess.run(["rustc", "--edition", "2021", "-O", "-o", program, TOP / "bench" / source], check=True)
    return program


def has_babeltrace() -> bool:
    return shutil.which("babeltrace2") is not None


def folders_in(folder: Path) -> list:
    """The trace folders in a folder, by name."""
    return sorted(host for host in folder.iterdir() if host.is_dir())


def bytes_of(folders: list) -> int:
    """The bytes of all files in trace folders."""
    return sum(file.stat().st_size for folder in folders for file in folder.iterdir() if file.is_file())


def peak_holds(what: str, peak: int, folders: list, events: int, an_event: int = EVENTS_PEAK) -> bool:
    """Whether bytes at the peak are at most the files, so many an event and 64 MiB; prints the ratio."""
    allowed = bytes_of(folders) + an_event * events + PEAK_MIB * 2**20
    return holds(f"{what}: bytes at the peak against the files, {an_event} an event and {PEAK_MIB} MiB", peak / allowed, 1)


def argument(default: Path) -> Path:
    """The folder that the script was given."""
    return Path(sys.argv[1]) if len(sys.argv) > 1 else default


def output(command: list) -> str:
    return subprocess.run(command, check=True, capture_output=True, text=True).stdout


def seconds(*commands: list) -> float:
    """The seconds that whole processes take, one after the other."""
    begun = time.monotonic()
    for command in commands:
        subprocess.run(command, check=True, stdout=subprocess.DEVNULL, stderr=subprocess.DEVNULL, env=environment(command))
    return time.monotonic() - begun


def measured(command: list, out: Path = Path(os.devnull)) -> tuple:
    """Seconds and bytes at the peak of one run."""
    with open(out, "wb") as file:
        begun = time.monotonic()
        process = subprocess.Popen(command, stdout=file, env=environment(command))
        _, status, usage = os.wait4(process.pid, 0)
        took = time.monotonic() - begun
    process.returncode = os.waitstatus_to_exitcode(status)
    if process.returncode != 0:
        sys.exit(f"{command[0]} ended with status {process.returncode}")
    return took, usage.ru_maxrss * 1024


def holds(what: str, value: float, bound: float) -> bool:
    """Prints a figure beside its bound, and tells whether that holds."""
    kept = value <= bound
    print(f"{what}: {value:.2f} (bound {bound:g}){'' if kept else ' BROKEN'}")
    return kept
