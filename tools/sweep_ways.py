"""The ways to plan many scenes, as sweeps.py tries them: each is started, interrupted and looked at in the same way."""

import json
import os
import secrets
import shutil
import signal
import socket
import subprocess
import sys
import time
from pathlib import Path

HERE = Path(__file__).resolve().parent
PACKAGE = HERE.parent / "bindings" / "python"
SWEEP = PACKAGE / "examples" / "sweep.py"
MOST_SECONDS = 600
PARTS = """ClusterName=here
SlurmctldHost={host}(127.0.0.1)
SlurmctldPort={ports[0]}
SlurmdPort={ports[1]}
AuthInfo=socket={folder}/munge.socket
SlurmUser=root
StateSaveLocation={folder}/state
SlurmdSpoolDir={folder}/spool
SlurmctldPidFile={folder}/slurmctld.pid
SlurmdPidFile={folder}/slurmd.pid
ProctrackType=proctrack/pgid
TaskPlugin=task/none
SelectType=select/cons_tres
SelectTypeParameters=CR_CPU
ReturnToService=2
SchedulerParameters=sched_interval=1,batch_sched_delay=0
NodeName={host} NodeAddr=127.0.0.1 CPUs={processors} State=UNKNOWN
PartitionName=all Nodes=ALL Default=YES State=UP
"""


def wait_until(holds, what):
    """Waits until something holds."""
    until = time.monotonic() + MOST_SECONDS
    while not holds():
        if time.monotonic() > until:
            raise TimeoutError(f"{what}: not in {MOST_SECONDS} seconds")
        time.sleep(0.02)


def processes():
    """The parent and the words of each process by its id."""
    found = {}
    for folder in Path("/proc").glob("[0-9]*"):
        try:
            parent = int((folder / "stat").read_text().rpartition(")")[2].split()[1])
            found[int(folder.name)] = parent, (folder / "cmdline").read_bytes().split(b"\0")
        except OSError:
            continue
    return found


def ids(chosen):
    """The ids of the processes whose parent and words are chosen."""
    return [number for number, (parent, words) in processes().items() if chosen(parent, words)]


def reads(process):
    """The file that a process reads as its standard input, or nothing if it has ended."""
    try:
        return os.readlink(f"/proc/{process}/fd/0")
    except OSError:
        return ""


def kill(process):
    """Kills a process, which may have ended. Whether it was there."""
    try:
        os.kill(process, signal.SIGKILL)
    except ProcessLookupError:
        return False
    return True


def stop(process):
    """Stops a process that was started here."""
    process.terminate()
    try:
        process.wait(timeout=MOST_SECONDS)
    except subprocess.TimeoutExpired:
        process.kill()
        process.wait()


class Way:
    """One way: a program that was started, and what it has made of the scenes of a folder.

    `goes_on` says whether it plans anew what a killed worker had, without being started again.
    """

    def __init__(self, program, scenes, results):
        self.program, self.scenes, self.results, self.running = program, scenes, results, None

    def close(self):
        """Kills what may be left of it."""
        if self.running and self.running.poll() is None:
            self.cut_off()

    def start(self):
        """Starts it, or goes on."""
        self.running = subprocess.Popen(
            self.words(), stdout=subprocess.PIPE, stderr=subprocess.PIPE, env=self.environment(), start_new_session=True
        )

    def environment(self):
        """The environment that it is started in."""
        return dict(os.environ)

    def interrupt(self):
        """Interrupts it, as a terminal does."""
        os.killpg(self.running.pid, signal.SIGINT)
        return self.end()

    def cut_off(self):
        """Kills it alone, without a word."""
        kill(self.running.pid)
        return self.end()

    def end(self):
        """Its exit status and what it has written, once it ends."""
        output, errors = self.running.communicate(timeout=MOST_SECONDS)
        return self.running.returncode, output.decode(), errors.decode()

    def done(self):
        """How many scenes are done."""
        return sum(1 for _ in self.results.glob("*.report"))

    def reports(self):
        """The report of each scene that is done, by its name."""
        return {path.stem: path.read_bytes() for path in self.results.glob("*.report")}

    def spoil(self):
        """Does to the results what an end in the middle of a write may do."""
        (self.results / "small-000001.report.part").write_bytes(b"path 1")

    def workers(self):
        """The ids of the planners. The program is a copy that this way alone calls."""
        program = str(self.program).encode()
        return ids(lambda _, words: words[:2] == [program, b"plan"])

    def planners_of_greatest(self):
        """The ids of the planners that read the greatest scene."""
        return [worker for worker in self.workers() if reads(worker).endswith("/the-greatest.scene")]

    def kill_worker(self):
        """Kills a planner of the greatest scene, once there is one. Whether it was there."""
        wait_until(self.planners_of_greatest, "a planner of the greatest scene")
        return any([kill(worker) for worker in self.planners_of_greatest()])


class Parallel(Way):
    """GNU parallel."""

    goes_on = True

    def words(self):
        return [HERE / "sweep" / "parallel.sh", self.program, self.scenes, self.results]


class Slurm(Way):
    """Slurm, with its daemons on the loopback address."""

    goes_on = False

    def __init__(self, program, scenes, results, folder):
        super().__init__(program, scenes, results)
        self.folder, self.daemons, self.job = folder, [], None

    def words(self):
        return ["sbatch", "--parsable", "--wait", "--array=0-3", HERE / "sweep" / "slurm.sh", self.program, self.scenes, self.results]

    def environment(self):
        return os.environ | {"SLURM_CONF": str(self.folder / "slurm.conf")}

    def ask(self, *words):
        """What a command of Slurm writes."""
        return subprocess.run(words, env=self.environment(), capture_output=True, check=False).stdout.decode()

    def open(self):
        """Starts munged, slurmctld and slurmd."""
        for name in ("state", "spool"):
            (self.folder / name).mkdir()
        key, conf = self.folder / "key", self.folder / "slurm.conf"
        key.write_bytes(secrets.token_bytes(1024))
        key.chmod(0o400)
        self.folder.chmod(0o755)
        host = socket.gethostname().partition(".")[0]
        conf.write_text(PARTS.format(host=host, ports=free_ports(), folder=self.folder, processors=len(os.sched_getaffinity(0))))
        munge = [f"--{name}={self.folder}/{file}" for name, file in MUNGE_FILES.items()]
        self.daemon("munged", "--foreground", "--force", *munge)
        wait_until((self.folder / "munge.socket").exists, "munged")
        self.daemon("slurmctld", "-D", "-f", conf)
        self.daemon("slurmd", "-D", "-f", conf)
        wait_until(lambda: "idle" in self.ask("sinfo", "--noheader", "--format=%T"), "slurmd")

    def daemon(self, *words):
        """Starts a daemon."""
        log = open(self.folder / f"{words[0]}.log", "wb")
        self.daemons.append(subprocess.Popen(words, stdout=log, stderr=log, env=self.environment(), start_new_session=True))
        log.close()

    def close(self):
        """Stops the daemons by their ids, the last one first."""
        super().close()
        for daemon in reversed(self.daemons):
            stop(daemon)

    def start(self):
        super().start()
        self.job = self.running.stdout.readline().decode().strip()

    def interrupt(self):
        self.ask("scancel", self.job)
        return self.end()

    def cut_off(self):
        """Kills the command that waits, and takes the job back."""
        kill(self.running.pid)
        return self.interrupt()

    def end(self):
        ended = super().end()
        wait_until(lambda: not self.ask("squeue", "--noheader").strip(), "the end of the job")
        return ended


MUNGE_FILES = {
    "key-file": "key",
    "socket": "munge.socket",
    "pid-file": "munge.pid",
    "log-file": "munge.log",
    "seed-file": "munge.seed",
}


def free_ports():
    """Two ports of the loopback address that nothing listens at."""
    with socket.socket() as one, socket.socket() as other:
        one.bind(("127.0.0.1", 0))
        other.bind(("127.0.0.1", 0))
        return one.getsockname()[1], other.getsockname()[1]


class Dask(Way):
    """sweep.py, on workers of this machine or of a cluster."""

    goes_on = True

    def __init__(self, python, program, scenes, results, more=(), options=()):
        super().__init__(program, scenes, results)
        self.python, self.more, self.options = python, more or ("scenes", scenes), options

    def words(self):
        return [self.python, "-B", SWEEP, *self.options, self.results, *self.more]

    def environment(self):
        return os.environ | {"PYTHONPATH": str(PACKAGE), "KIMOREFO_PROGRAM": str(self.program)}

    def done(self):
        return self.results.read_bytes().count(b"\n") if self.results.exists() else 0

    def lines(self):
        """The lines of the results, without one that is cut."""
        whole = self.results.read_bytes().rpartition(b"\n")[0] if self.results.exists() else b""
        return [json.loads(line) for line in whole.splitlines()]

    def reports(self):
        return {line["name"]: told(line).encode() for line in self.lines()}

    def spoil(self):
        with open(self.results, "ab") as file:
            file.truncate(file.tell() - 9)

    def workers(self):
        return ids(lambda parent, words: parent == self.running.pid and any(b"spawn_main" in word for word in words))

    def kill_worker(self):
        """Kills the oldest worker. Whether it was there."""
        workers = self.workers()
        return bool(workers) and kill(min(workers))


class Cluster:
    """A scheduler of dask and a worker, as on two machines."""

    def __init__(self, program):
        self.address, self.running = f"tcp://127.0.0.1:{free_ports()[0]}", []
        self.environment = os.environ | {"PYTHONPATH": str(PACKAGE), "KIMOREFO_PROGRAM": str(program)}

    def open(self):
        """Starts both."""
        port = self.address.rpartition(":")[2]
        self.start("dask-scheduler", "--host", "127.0.0.1", "--port", port, "--no-dashboard")
        self.start("dask-worker", self.address, "--nthreads", "2", "--no-dashboard")

    def start(self, *words):
        """Starts one of them."""
        quiet = {"stdout": subprocess.DEVNULL, "stderr": subprocess.DEVNULL}
        self.running.append(subprocess.Popen(words, env=self.environment, start_new_session=True, **quiet))

    def close(self):
        """Stops both by their ids, the worker first."""
        for process in reversed(self.running):
            stop(process)


def told(line):
    """What the program writes of the scene of a line."""
    refusal = line.get("refusal")
    if refusal is None:
        return line["report"]
    return refusal["said"][0] + "\n"


def python_with_dask():
    """A Python that has dask.distributed, or None."""
    for python in (sys.executable, "/usr/bin/python3"):
        if subprocess.run([python, "-c", "import distributed"], capture_output=True, check=False).returncode == 0:
            return python
    return None


def missing_of_slurm():
    """Why Slurm cannot be tried, or None."""
    missing = [name for name in ("munged", "slurmctld", "slurmd", "sbatch") if not shutil.which(name)]
    if missing:
        return f"there is no {missing[0]}"
    return None if os.geteuid() == 0 else "slurmd is to be started by root"
