"""Tests of bin/install, tools/completions and tools/release, for companions/tools_check.py: `tests(tq)` gives what is not as it should be.

1. What bin/install puts under a folder: program and companions run there, with the program beside them; the page is that of docs/; bash completes commands,
   options and values; a second time it puts the same.
2. tools/release in a small repository with a stand-in for the gate: an archive with its sums where the gate passes, none where it fails, where a file differs
   from the commit before the gate or behind it, or where there is no program."""
import glob
import hashlib
import os
import shutil
import subprocess
import tarfile
import tempfile

ROOT = os.path.dirname(os.path.dirname(os.path.realpath(__file__)))


def ran(words, given=b"", **how):
    return subprocess.run(words, input=given, capture_output=True, check=False, **{"cwd": ROOT} | how)


# What is put under a folder

COMPLETED = [
    (["tq", ""], "shell threads audit upgrade --help --version"),
    (["tq", "sh"], "shell"),
    (["tq", "threads", "--"], "--levels --workers --rounds --help"),
    (["tq", "threads", "--workers", ""], "0 1 2"),
    (["tq", "shell", "--levels", "1"], "1 10"),
    (["tq", "audit", "--"], "--help"),
]
RUNS = [
    (["tq-live", "--levels", "1", "--transcript"], b"begin\n", b"begun 1\n"),
    (["tq-board"], b"board levels 1\nserver 1 cost 1 1 up least 1 by 1\nend\n", b"read 1 by 1 write 1 by 1"),
    (["tq-journals", "--levels", "1"], b"begin\n", b'"txn":1'),
    (["tq-availability", "--levels", "1"], b"", b"0.900000000000"),
    (["tq-picture", f"{ROOT}/examples/journals/stuck.json"], b"", b"</svg>"),
    (["tq-why", f"{ROOT}/examples/journals/stuck.json"], b"", b"tq audit says the same"),
    (["tq-shrink", f"{ROOT}/examples/journals/stuck.json"], b"", b'"view":[]}'),
    (["tq-cluster", "--help"], b"", b"asked of a cluster"),
    (["tq", "audit"], b"{}", b"unreadable"),
]


def completes(path):
    """What bash completes by this file."""
    script = ["source " + path]
    for words, _ in COMPLETED:
        script += [f"COMP_WORDS=({' '.join(repr(it) for it in words)})", f"COMP_CWORD={len(words) - 1}", "_tq", 'echo "${COMPREPLY[*]}"']
    found = ran(["bash", "-c", "\n".join(script)]).stdout.decode().split("\n")[:-1]
    if found != [wanted for _, wanted in COMPLETED]:
        yield f"bash completes {found}"


def files_of(folder):
    found = {}
    for path in sorted(glob.glob(f"{folder}/**", recursive=True)):
        if os.path.isfile(path):
            with open(path, "rb") as it:
                found[os.path.relpath(path, folder)] = it.read(), os.stat(path).st_mode
    return found


def installed(tq):
    with tempfile.TemporaryDirectory() as folder:
        prefix = f"{folder}/under/it"
        done = ran(["bin/install", "--program", tq, prefix])
        if done.returncode or done.stderr:
            yield f"bin/install: {done}"
            return
        for words, given, wanted in RUNS:
            done = ran([f"{prefix}/bin/{words[0]}", *words[1:]], given, cwd=folder)
            if wanted not in done.stdout or b"Traceback" in done.stderr:
                yield f"{words[0]} where it was put: {done}"
        yield from completes(f"{prefix}/share/bash-completion/completions/tq")
        if shutil.which("zsh") and ran(["zsh", "-n", f"{prefix}/share/zsh/site-functions/_tq"]).stderr:
            yield "the completions are not read by zsh"
        first = files_of(prefix)
        page = ran(["tools/manual", tq]).stdout
        if first["share/man/man1/tq.1"][0] != page or "tools/release" in str(first.keys()):
            yield f"bin/install puts {list(first)}"
        if ran(["bin/install", "--program", tq, prefix]).returncode or files_of(prefix) != first:
            yield "bin/install puts something else the second time"
        done = ran(["bin/install", "--program", "/no such program", prefix])
        if done.returncode != 1 or done.stderr.count(b"\n") != 1:
            yield f"bin/install without its program: {done}"


# A release

GATE = """#!/bin/sh
[ "$GATE" = fails ] && echo no && exit 1
[ "$GATE" = changes ] && echo more >> README.md
echo 134 passed, 0 failed
"""


def repository(folder, tq):
    """A small repository with what a release takes, and stand-ins for gate and kit. Returns the way to run commands in it."""
    root, tools = f"{folder}/root", f"{folder}/tools"
    for name in ("bin", "companions/cluster/units", "companions/live", "tools", "sessions", ".ci", "crates/tq/out"):
        os.makedirs(f"{root}/{name}")
    cluster = ("companions/cluster/*", "companions/cluster/units/*")
    for form in ("bin/install", "bin/live", *cluster, "companions/live/*.py", "tools/*", "sessions/*journals.py", "sessions/plain.py", "README.md"):
        for path in glob.glob(f"{ROOT}/{form}"):
            if os.path.isfile(path):
                shutil.copy(path, f"{root}/{os.path.relpath(path, ROOT)}")
    shutil.copy(tq, f"{root}/crates/tq/out/tq")
    os.makedirs(tools)
    for path, text in ((f"{root}/.ci/run", GATE), (f"{tools}/rt", "#!/bin/sh\necho kit-1 logic abc\n"), (f"{root}/.gitignore", "/crates/*/out/\n")):
        with open(path, "w", encoding="utf-8") as it:
            it.write(text)
        os.chmod(path, 0o755)
    env = {"PATH": f"{tools}:{os.environ['PATH']}", "HOME": folder, "GIT_CONFIG_NOSYSTEM": "1"}
    run = lambda words, gate="": ran(words, cwd=root, env=env | {"GATE": gate})
    for words in (["init", "-q"], ["add", "-A"], ["-c", "user.name=a", "-c", "user.email=a@b", "commit", "-qm", "one"]):
        run(["git", *words])
    return root, run


def archive_faults(path, program, made):
    """What is not right in an archive."""
    with open(path, "rb") as it, open(path.replace(".tar.gz", ".sha256"), encoding="utf-8") as sums:
        if sums.read() != f"{hashlib.sha256(it.read()).hexdigest()}  {os.path.basename(path)}\n":
            yield "the sum of the archive is not that of its file"
    with tarfile.open(path) as it, open(program, "rb") as built:
        name, data = os.path.basename(path).removesuffix(".tar.gz"), built.read()
        told = it.extractfile(f"{name}/RELEASE").read().decode()
        if it.extractfile(f"{name}/bin/tq").read() != data or it.extractfile(f"{name}/gate.log").read() != b"134 passed, 0 failed\n":
            yield "the archive has another program or another log of the gate"
        if not all(text in told for text in (f"commit {made}", "kit kit-1 logic abc\n", f"sha256 {hashlib.sha256(data).hexdigest()}  bin/tq\n")):
            yield f"RELEASE says {told}"


def released(tq):
    if not shutil.which("git"):
        return
    with tempfile.TemporaryDirectory() as folder:
        root, run = repository(folder, tq)
        made = run(["git", "rev-parse", "HEAD"]).stdout.decode().strip()
        for gate in ("fails", "changes"):
            done = run(["tools/release", f"{folder}/to"], gate)
            if done.returncode != 1 or not done.stderr or os.path.exists(f"{folder}/to"):
                yield f"tools/release where the gate {gate}: {done}"
        done = run(["tools/release", f"{folder}/to"])
        if done.returncode != 1 or b"README.md" not in done.stderr:
            yield f"tools/release of a changed file: {done}"
        run(["git", "checkout", "-q", "README.md"])
        for place in ("one", "other"):
            done = run(["tools/release", f"{folder}/{place}"])
            if done.returncode:
                yield f"tools/release: {done}"
                return
        one, other = glob.glob(f"{folder}/one/*.tar.gz") + glob.glob(f"{folder}/other/*.tar.gz")
        yield from archive_faults(one, f"{root}/crates/tq/out/tq", made)
        with open(one, "rb") as it, open(other, "rb") as that:
            if it.read() != that.read():
                yield "two archives of one commit differ"
        os.remove(f"{root}/crates/tq/out/tq")
        if run(["tools/release", f"{folder}/none"]).returncode != 1 or os.path.exists(f"{folder}/none"):
            yield "tools/release makes an archive without a program"


def tests(tq):
    for test in (installed(tq), released(tq)):
        yield from test
