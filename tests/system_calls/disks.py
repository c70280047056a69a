"""SystemDisk: what is on the disk before a change is acknowledged, who may read it, and who holds it."""

from __future__ import annotations

import fcntl
import os
import stat
from pathlib import Path

from trying import Ran

from .recording import CREATE, EXCLUSIVE, EXCLUSIVE_LOCK_AT_ONCE, Call
from .stage import IN_PIECES, Serving, Stage, inventory, until

WORDS = ("./vault.sock", "--control", "./control.sock", "--state", "./state")
NEEDED = 4_000_000_000
"""A moment until which an entry is needed, with its date: it is served so after a restart."""
NEED = ("need", "web", str(NEEDED))
DATE = b"2096-10-02T07:06:40Z"
UNKEPT = b"ok\nweb has no need\nthis holds until a restart: the agent keeps no changes\n"
"""What is answered to a need that nothing keeps (docs/commands/serve.md, Commands)."""


def place_of(call: Call) -> str:
    """What a call is made of, by its path without `./`."""
    return call.of.removeprefix("./")


def before_ok(calls: list[Call]) -> list[Call]:
    """The calls after the last request of a client, up to the first bytes of the answer."""
    guest = "guest of ./control.sock"
    asked = max(at for at, call in enumerate(calls) if call.name == "read" and call.of == guest and call.result > 0)
    later = calls[asked:]
    told = next((at for at, call in enumerate(later) if call.name == "write" and call.of == guest), len(later))
    return later[:told]


def synced_after(calls: list[Call], path: str, last: str) -> bool:
    """Whether the file at a path was synced after the last call of that name that was made of it."""
    made = [call.name for call in calls if place_of(call) == path and call.result >= 0 and call.name in (last, "sync")]
    return last in made and made[-1] == "sync"


def replaced(calls: list[Call], path: str) -> list[str]:
    """How a file was replaced: the calls that were made of the new one beside it, of the move, and of the folder."""
    folder, _, name = path.rpartition("/")
    beside = f"{folder}/.{name}.new" if folder else f".{name}.new"
    steps = []
    for call in calls:
        if call.result < 0:
            continue
        if call.name == "open" and call.words[0].removeprefix("./") == beside and is_made(call):
            steps.append("made anew" if int(call.words[1], 8) & EXCLUSIVE else "made")
        elif call.name == "rename" and tuple(word.removeprefix("./") for word in call.words) == (beside, path):
            steps.append("moved")
        elif call.name in ("write", "sync") and place_of(call) == beside:
            steps.append(call.name)
        elif steps and call.name == "sync" and place_of(call) == (folder or "."):
            steps.append("folder synced")
    return [step for at, step in enumerate(steps) if at == 0 or steps[at - 1] != step]


REPLACED = ["made anew", "write", "sync", "moved", "folder synced"]


def is_synced(calls: list[Call], folder: str) -> bool:
    """Whether the name of a new folder was synced before a file was made in it."""
    made = next((at for at, call in enumerate(calls) if call.name == "mkdir" and call.words[0] == folder), len(calls))
    for call in calls[made:]:
        if call.name == "sync" and call.of == ".":
            return True
        if call.name == "open" and call.words[0].startswith(f"{folder}/") and is_made(call):
            return False
    return False


def is_made(call: Call) -> bool:
    """Whether an open makes a file where there is none."""
    return bool(int(call.words[1], 8) & CREATE)


def modes(folder: Path) -> dict[str, str]:
    return {path.name: oct(stat.S_IMODE(path.stat().st_mode)) for path in (folder, *folder.iterdir())}


def keeps_changes(stage: Stage) -> None:
    """What is acknowledged is on the disk, whole though each call moves a piece, in files for their user alone, and is there after a
    kill."""
    name = stage.write("one.toml", inventory(), 0o640)
    state = stage.room / "state"
    with stage.broker():
        with stage.serve(name, *WORDS, umask=0, told=IN_PIECES) as agent:
            stage.check("it answers", True, agent.answers())
            calls = agent.recording.calls()
            made = [call for call in calls if call.name == "mkdir"]
            stage.check("the folder is made", [("./state", "700")], [(call.words[0], call.words[1]) for call in made])
            stage.check("and its name is on the disk before a file is made in it", True, is_synced(calls, "./state"))
            stage.check("the copy is on the disk", REPLACED, replaced(calls, "state/copy"))
            stage.check("a start writes no journal", [], replaced(calls, "state/journal"))
            # (A line that says until when the entry can be kept follows once that is known.)
            stage.check("a need", [b"ok", b"web is needed until " + DATE], agent.asked(*NEED).splitlines()[:2])
            stage.check("the journal is made by it", REPLACED, replaced(before_ok(agent.recording.calls()), "state/journal")[: len(REPLACED)])
            stage.check("it is on the disk before", True, synced_after(before_ok(agent.recording.calls()), "state/journal", "pwrite"))
            stage.check("modes", {each: "0o700" if each == "state" else "0o600" for each in modes(state)}, modes(state))
            stage.check("the file of the ends", "0o600", oct(stat.S_IMODE((stage.room / "ends").stat().st_mode)))
        with stage.serve(name, *WORDS, umask=0o077, told=IN_PIECES) as agent:
            stage.check("it answers again", True, agent.answers())
            stage.check("what was acknowledged holds", True, until(lambda: DATE in agent.asked("status")))
            stage.check("settle", b"ok\none.toml holds every change\n", agent.asked("settle"))
            stage.check("the file is on the disk before", REPLACED, replaced(before_ok(agent.recording.calls()), "one.toml"))
            stage.check("who may read it stays", 0o640, stat.S_IMODE((stage.room / name).stat().st_mode))
            stage.check("it holds the change", True, f'need = "{DATE.decode()}"\n' in (stage.room / name).read_text())
        left = [path.name for path in (*stage.room.iterdir(), *state.iterdir()) if path.name.endswith(".new")]
        stage.check("nothing is left beside", [], left)


def is_held(path: Path) -> bool:
    """Whether somebody holds the lock of a file."""
    with path.open() as handle:
        try:
            fcntl.flock(handle, fcntl.LOCK_EX | fcntl.LOCK_NB)
        except BlockingIOError:
            return True
    return False


def holds_its_folder(stage: Stage) -> None:
    """A second agent is told at once that the folder is held, as long as the first one lives."""
    name = stage.write("one.toml", inventory())
    with stage.broker():
        with stage.serve(name, *WORDS) as agent:
            stage.check("it answers", True, agent.answers())
            stage.check("its lock is held", True, is_held(stage.room / "state/lock"))
            ran, recording = stage.run("serve", name, *WORDS)
            said = b"leasekeep: ./state: another agent serves with this folder; end that one, or name another\n"
            stage.check("a second one is refused", Ran(1, b"", said), ran)
            stage.check("without waiting", {str(EXCLUSIVE_LOCK_AT_ONCE)}, {call.words[1] for call in recording.calls("flock")})
            beside = stage.serve(name, "./vault.sock", "--runtime", ".")
            with beside:
                stage.check("nor does it get the ends of the other", True, beside.says("alert: ends ./ends is another agent's"))
        with stage.serve(name, *WORDS) as agent:
            stage.check("after the first one it is free", True, agent.answers())


def need_in(path: Path) -> str:
    """The need that the one table of an inventory writes."""
    return next(line.split()[2] for line in path.read_text().splitlines() if line.startswith("need"))


def mends_a_journal(stage: Stage) -> None:
    """A start reads a journal with a torn record after its last one, and writes nothing; the first change makes the journal anew."""
    name = stage.write("one.toml", inventory())
    state = stage.room / "state"
    state.mkdir(0o700)
    was = need_in(stage.room / name)
    record, torn = f"+need web {was} {NEEDED}\n", f"-need web {was} 7"
    stage.write("state/journal", record + torn)
    with stage.broker(), stage.serve(name, *WORDS) as agent:
        stage.check("it answers", True, agent.answers())
        stage.check("the records hold", True, DATE in agent.asked("status"))
        stage.check("the journal is as it was", record + torn, (state / "journal").read_text())
        stage.check("a change", True, agent.asked("need", "web", "0").startswith(b"ok\n"))
        stage.check("the journal is made anew", REPLACED, replaced(before_ok(agent.recording.calls()), "state/journal")[: len(REPLACED)])
        stage.check("and holds both, and nothing else", f"{record}+need web {was} 0\n-", (state / "journal").read_text())


def opened_as_it_was(agent: Serving, path: str) -> list[Call]:
    """The calls that open what stood at a path before another file was moved there."""
    opened: list[Call] = []
    for call in agent.recording.calls("open", "rename"):
        words = [word.removeprefix("./") for word in call.words]
        if call.name == "rename" and call.result == 0 and words[1] == path:
            break
        opened += [call] if call.name == "open" and words[0] == path else []
    return opened


def opens_no_pipe(stage: Stage) -> None:
    """A pipe in the place of one of its own files is not opened, which would wait for somebody at its other end."""
    name = stage.write("one.toml", inventory())
    (stage.room / "state").mkdir(0o700)
    irregular = "it is not a regular file"
    lines = {"state/lock": f"alert: folder ./state cannot be used ({irregular})", "state/journal": f"alert: folder ./state cannot be used ({irregular})",
             "state/copy": "", "ends": f"alert: ends cannot be read: {irregular}", "ends.lock": ""}
    with stage.broker():
        for path, line in lines.items():
            (stage.room / path).unlink(missing_ok=True)
            os.mkfifo(stage.room / path, 0o600)
            with stage.serve(name, *WORDS) as agent:
                stage.check(f"{path}: it answers", True, agent.answers())
                stage.check(f"{path}: it is not opened", [], opened_as_it_was(agent, path))
                if line:
                    stage.check(f"{path}: that is said", True, agent.says(line))
            for left in (stage.room / path, stage.room / "ends"):
                left.unlink(missing_ok=True)


def tells_of_failures(stage: Stage) -> None:
    """A change is refused where one of its calls fails, and taken once it does not."""
    name = stage.write("one.toml", inventory())
    with stage.broker(), stage.serve(name, *WORDS, told=stage.failing("")) as agent:
        stage.check("it answers", True, agent.answers())
        for call, words in (("pwrite", NEED), ("sync", NEED), ("rename", ("settle",))):
            stage.failing(call)
            stage.check(f"{call} fails", True, agent.asked(*words).startswith(b"error: "))
            stage.failing("")
            stage.check(f"{call} fails no more", True, agent.asked(*words).startswith(b"ok\n"))


def loses_no_journal(stage: Stage) -> None:
    """Where the journal cannot be opened or read, or the lock cannot be had, the folder is not used; what stands in it holds once it is."""
    name = stage.write("one.toml", inventory())
    (stage.room / "state").mkdir(0o700)
    was = need_in(stage.room / name)
    stage.write("state/journal", record := f"+need web {was} {NEEDED}\n-")
    with stage.broker():
        for call in ("open journal", "read journal", "flock"):
            with stage.serve(name, *WORDS, told=stage.failing(call)) as agent:
                stage.check(f"{call} fails: it answers", True, agent.answers())
                stage.check(f"{call} fails: that is said", True, agent.says("alert: folder ./state cannot be used (the disk failed)"))
                stage.check(f"{call} fails: no change is kept", UNKEPT, agent.asked("need", "web", "0"))
            stage.check(f"{call} fails: the journal is as it was", record, (stage.room / "state/journal").read_text())
        with stage.serve(name, *WORDS) as agent:
            stage.check("it answers", True, agent.answers())
            stage.check("what stood there holds", True, DATE in agent.asked("status"))


def tells_of_open_files(stage: Stage) -> None:
    """What others may read is told of; a file that can be neither read nor written is told of too."""
    name = stage.write("one.toml", inventory())
    with stage.broker():
        with stage.serve(name, *WORDS) as agent:
            stage.check("it answers", True, agent.answers())
        (stage.room / "state").chmod(0o755)
        (stage.room / "state/copy").chmod(0o644)
        (stage.room / "ends").unlink()
        (stage.room / "ends").mkdir()
        with stage.serve(name, *WORDS) as agent:
            stage.check("a folder", True, agent.says("alert: folder ./state is open to others (mode 0755)"))
            stage.check("a file", True, agent.says("alert: folder ./state/copy is open to others (mode 0644)"))
            stage.check("one that cannot be read", True, agent.says("alert: ends cannot be read"))
            stage.check("one that cannot be written", True, agent.says("ends could not be kept"))


def writes_a_new_file(stage: Stage) -> None:
    """A link that stands where a new file is written is not followed."""
    name = stage.write("one.toml", inventory())
    stage.write("theirs", "theirs")
    (stage.room / ".ends.new").symlink_to("theirs")
    with stage.broker(), stage.serve(name, "./vault.sock", "--runtime", ".") as agent:
        kept = stage.room / "ends"
        stage.check("the ends are kept", True, until(lambda: kept.exists() and kept.read_text().startswith("web ")))
        stage.check("the link is not followed", ("theirs", False), ((stage.room / "theirs").read_text(), kept.is_symlink()))
        stage.check("nothing is written to standard error", b"", agent.end())
