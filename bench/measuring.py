"""What `bench/canon`, `bench/merge`, `bench/show` and `bench/split` share: the programs that are measured, how they are
measured, and how tables are printed."""

import os
import re
import resource
import subprocess
import sys

BENCH = os.path.dirname(os.path.abspath(__file__))
PROGRAM = os.path.join(os.path.dirname(BENCH), "crates/otelprof/out/otelprof")
PEER = os.path.join(BENCH, "peer")
ROUNDS = 3
SECONDS = 600


def run(command, status=0, **options):
    """Runs a command that must end with this status."""
    done = subprocess.run(command, timeout=SECONDS, stdout=subprocess.DEVNULL, **options)
    if done.returncode != status:
        raise subprocess.CalledProcessError(done.returncode, command)
    return done


def works(*command):
    try:
        run(command, stderr=subprocess.DEVNULL)
    except (FileNotFoundError, subprocess.CalledProcessError):
        return False
    return True


def built_peer(folder):
    """The peer's program, or None where it cannot be built."""
    if not works("protoc", "--version") or not works("g++", "--version"):
        print("peer left out: it needs protoc and g++")
        return None
    peer = os.path.join(folder, "peer")
    sources = [os.path.join(PEER, "peer.cc"), os.path.join(folder, "profiles.pb.cc")]
    try:
        run(["protoc", f"--cpp_out={folder}", f"--proto_path={PEER}", "profiles.proto"])
        run(["g++", "-O2", f"-I{folder}", "-o", peer, *sources, "-lprotobuf"])
    except subprocess.CalledProcessError as failed:
        print(f"peer left out: {failed.cmd[0]} failed")
        return None
    return peer


def processor_time(command):
    """The user and system time of a run in milliseconds."""
    before = resource.getrusage(resource.RUSAGE_CHILDREN)
    run(command)
    after = resource.getrusage(resource.RUSAGE_CHILDREN)
    return 1000 * (after.ru_utime - before.ru_utime + after.ru_stime - before.ru_stime)


def processor_times(commands):
    """The least time of each of these commands, which take turns."""
    rounds = [[processor_time(command) for command in commands.values()] for _ in range(ROUNDS)]
    return dict(zip(commands, map(min, zip(*rounds))))


def instructions(command, folder, status=0):
    """The instructions of a run that ends with this status, the start of the program included."""
    callgrind = ["valgrind", "--tool=callgrind", "--vgdb=no", f"--callgrind-out-file={folder}/calls"]
    report = run([*callgrind, *command], status, stderr=subprocess.PIPE, text=True).stderr
    return int(re.search(r"Collected : (\d+)", report)[1])


def peak_memory(command, folder):
    """The most memory that a run holds at a time, in bytes."""
    report = os.path.join(folder, "memory")
    run(["time", "-f", "%M", "-o", report, *command])
    with open(report) as file:
        return int(file.read()) * 1024


class Tools:
    """The tools that are installed. All files are kept in `folder`."""

    def __init__(self, folder, with_peer=True):
        self.folder = folder
        self.peer = built_peer(folder) if with_peer else None
        self.valgrind = works("valgrind", "--version")
        self.gnu_time = works("time", "-f", "%M", "true")
        if not self.valgrind:
            print("instructions left out: valgrind is missing")
        if not self.gnu_time:
            print("memory left out: GNU time is missing")

    def path(self, name):
        return os.path.join(self.folder, name)

    def peers(self, target, sources):
        """The commands by which the peer reads these files into one message and writes it to `target`."""
        return {name: [self.peer, allocation, target, *sources] for name, allocation in (("peer", "heap"), ("arena", "arena")) if self.peer}


def print_table(rows):
    """A line for each row: a number, or None, for each column by its group and its name."""
    groups, names = zip(*rows[0])
    titles = [group if group not in groups[:place] else "" for place, group in enumerate(groups)]
    texts = [["" if number is None else f"{number:.2f}" for number in row.values()] for row in rows]
    lines = [titles, names, *texts]
    widths = [max(map(len, column)) for column in zip(*lines)]
    for line in lines:
        print("  ".join(text.rjust(width) for text, width in zip(line, widths)).rstrip())


def chosen_kinds(words, kinds):
    """The kinds that the command line names, or all of `kinds`. Ends where one is unknown, or otelprof is not built."""
    for word in words:
        if word not in kinds:
            sys.exit(f"no kind {word}: there are {', '.join(kinds)}")
    if not os.path.exists(PROGRAM):
        sys.exit("otelprof is not built: run ./otelprof canon IN OUT")
    return words or list(kinds)
