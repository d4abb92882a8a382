"""Tries the mutants of one crate, by few checks. For `scripts/wrong-bodies`."""

import os
import shutil
import tempfile
import threading
from contextlib import contextmanager
from functools import partial

from mutant_edits import BadEdit, Mutant, module_of
from prover import copy_kept, copy_parts

# Where in a crate's out/ its proved work is: that of these trials, and that of `rt check`.
WORK = ("mutants", "incremental")
# How many mutants one check has at most: what it can't read is checked once more in halves.
TOGETHER = 8


class Trial:
    """A mutant, and what the first check of it asks for."""

    def __init__(self, mutant):
        self.mutant = mutant
        self.functions, self.modules = mutant.changes()

    def paths(self):
        return [it.path for it in self.functions] if self.functions is not None else self.modules

    def asks_for_module(self):
        """Where the prover doesn't know the function by its path, its module is checked."""
        module = module_of(self.mutant.file)
        self.functions, self.modules = None, [module] if module else []

    def is_apart(self, other):
        """Whether one check can have both, and say of each whether it is refused."""
        if self.functions is None or other.functions is None:
            return False
        pairs = [(one, two) for one in self.functions for two in other.functions]
        return not any(one.name == two.name or one.calls(two) or two.calls(one) for one, two in pairs)

    def found_in(self, said):
        """Whether a check of several mutants refuses a function that this one changes, for a reason in that function, and the reason. None
        where it doesn't say."""
        ends = {it: said.function(it.path) for it in self.functions}
        if all(end == "proved" for end in ends.values()):
            return False, ""
        for function, end in ends.items():
            if end and end != "proved" and "it calls " not in end:
                for file, line, reason in said.reasons()[0]:
                    if file == self.mutant.file and line - 1 in function.lines or file.startswith("proofs/") and f"/{function.name}/" in file:
                        return True, reason
        return None, ""


class Trials:
    """The mutants of a crate. `room` is a folder of their own, and `tell` takes each result with its reason."""

    def __init__(self, prover, room, name, edits, tell):
        self.prover, self.room, self.name, self.tell = prover, room, name, tell
        self.crate = f"{prover.top}/crates/{name}"
        self.trials = []
        self.whole_turn, self.is_whole_proved = threading.Lock(), None
        for edit in edits:
            try:
                self.trials.append(Trial(Mutant(self.crate, edit)))
            except BadEdit as bad:
                tell(f"{name}/{os.path.basename(edit)}", "bad", str(bad))

    def begin(self, jobs, lanes):
        """Checks the text without a mutant, and returns the tasks that check the mutants over that work."""
        if not self.trials:
            return []
        copy_parts(self.crate, f"{self.room}/text")
        self.take_work()
        said = self.check_unchanged(jobs)
        if not said.is_proved():
            for trial in self.trials:
                self.tell(trial.mutant.name, None, f"the text without it isn't proved: {said.lines[-1]}")
            return []
        self.leave_work()
        most = max(1, min(TOGETHER, -(-len(self.trials) // lanes)))
        return [partial(self.try_together, it) for it in together(self.trials, most)]

    def take_work(self):
        """Begins with what an earlier run or `rt check` has proved of the crate."""
        earlier = next((it for it in (f"{self.crate}/out/{part}" for part in WORK) if os.path.isdir(it)), None)
        if earlier:
            copy_kept(earlier, f"{self.room}/kept")
        else:
            os.makedirs(f"{self.room}/kept")

    def leave_work(self):
        """Leaves what is proved of the text without a mutant to the next run."""
        os.makedirs(f"{self.crate}/out", exist_ok=True)
        new = tempfile.mkdtemp(dir=f"{self.crate}/out")
        copy_kept(f"{self.room}/kept", f"{new}/kept")
        shutil.rmtree(f"{self.crate}/out/{WORK[0]}", ignore_errors=True)
        os.rename(f"{new}/kept", f"{self.crate}/out/{WORK[0]}")
        os.rmdir(new)

    def check_unchanged(self, jobs):
        """Checks all that the first checks of the mutants ask for. A function whose path isn't known is asked for by its module."""
        while True:
            only = [] if any(not it.paths() for it in self.trials) else sorted({path for it in self.trials for path in it.paths()})
            said = self.prover.check(self.name, f"{self.room}/text", f"{self.room}/kept", only, jobs)
            lost = [it for it in self.trials if it.functions is not None and said.missing() in it.paths()]
            for trial in lost:
                trial.asks_for_module()
            if not lost:
                return said

    @contextmanager
    def changed(self, trials, kept):
        """Gives a copy of the crate with these mutants, and a copy of the work that is kept."""
        room = tempfile.mkdtemp(dir=self.room)
        try:
            copy_parts(f"{self.room}/text", f"{room}/text")
            for trial in trials:
                path = f"{room}/text/{trial.mutant.file}"
                with open(path, encoding="utf-8") as handle:
                    text = trial.mutant.applied(handle.read())[0]
                with open(path, "w", encoding="utf-8") as handle:
                    handle.write(text)
            copy_kept(kept, f"{room}/kept")
            yield f"{room}/text", f"{room}/kept"
        finally:
            shutil.rmtree(room, ignore_errors=True)

    def try_together(self, trials):
        """Checks several mutants at once. Returns the tasks for those of which the check doesn't say whether it refuses them."""
        if len(trials) == 1:
            return self.try_alone(trials[0])
        try:
            with self.changed(trials, f"{self.room}/kept") as (text, kept):
                said = self.prover.check(self.name, text, kept, sorted({path for it in trials for path in it.paths()}))
        except BadEdit:
            return [partial(self.try_alone, it) for it in trials]
        if not (said.is_proved() or said.is_refused()) or any(said.unread(it.mutant.file) for it in trials):
            half = len(trials) // 2
            return [partial(self.try_together, it) for it in (trials[:half], trials[half:])]
        found = [(trial, *trial.found_in(said)) for trial in trials]
        for trial, is_refused, reason in found:
            if is_refused:
                self.tell(trial.mutant.name, "refused", reason)
        # A function that calls one that is refused wasn't looked at.
        unsaid = [trial for trial, is_refused, _ in found if is_refused is None]
        again = [[it] for it in unsaid] if len(unsaid) == len(trials) else [unsaid] if unsaid else []
        return [*[partial(self.try_together, it) for it in again], *[partial(self.try_whole, trial) for trial, is_refused, _ in found if is_refused is False]]

    def try_alone(self, trial):
        with self.changed([trial], f"{self.room}/kept") as (text, kept):
            said = self.prover.check(self.name, text, kept, trial.paths())
        if said.is_proved() and trial.paths():
            return [partial(self.try_whole, trial)]
        self.judge(trial, said)
        return []

    def try_whole(self, trial):
        """Checks the whole crate, over a check of it without a mutant."""
        with self.whole_turn:
            if self.is_whole_proved is None:
                copy_kept(f"{self.room}/kept", f"{self.room}/whole")
                self.is_whole_proved = self.prover.check(self.name, f"{self.room}/text", f"{self.room}/whole").is_proved()
        if not self.is_whole_proved:
            self.tell(trial.mutant.name, None, "the crate without it isn't proved")
            return []
        with self.changed([trial], f"{self.room}/whole") as (text, kept):
            said = self.prover.check(self.name, text, kept)
        self.judge(trial, said)
        return []

    def judge(self, trial, said):
        """Tells the result of the check of one mutant."""
        unread = said.unread(trial.mutant.file)
        reasons, is_told = said.reasons()
        if unread:
            result, reason = "bad", unread
        elif said.is_refused():
            result, reason = "named" if is_told and not reasons else "refused", reasons[0][2] if reasons else ""
        elif said.is_at_limit():
            result, reason = "limit", ""
        else:
            result, reason = ("proved", "") if said.is_proved() else (None, f"its check ended with status {said.status}: {said.lines[-1]}")
        self.tell(trial.mutant.name, result, reason)


def together(trials, most):
    """Puts trials into lists of at most `most`, in each of which one check can have all."""
    lists = []
    for trial in trials:
        place = next((it for it in lists if len(it) < most and all(trial.is_apart(other) for other in it)), None)
        if place is None:
            lists.append([trial])
        else:
            place.append(trial)
    return lists
