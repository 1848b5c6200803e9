"""A run of lines over a new store, with both daemons and volumes in memory, as docs/FORMATS.md has it (Daemons, Settling)."""

from .daemons import Copy, Fetch, Migrate, Offer, Recall, Reply, Volumes, is_quiet
from .script import CALLERS, Call, text_of
from .store import Store


class Run:
    """The order of all that is done. Which of the calls that a daemon is offered is made, `choose` says; here it is the first."""

    def __init__(self):
        self.store = Store()
        self.volumes = Volumes()
        self.daemons = {}
        self.entries = []

    def choose(self, daemon, offer):
        return offer.calls[0]

    def event(self, call):
        """Makes a call, which is an entry."""
        answer = self.store.answer(call)
        self.entries.append(f"{text_of(call)} = {answer}")
        return answer

    def line(self, line):
        if isinstance(line, Call):
            return self.event(line)
        if line.verb == "start":
            self.daemons.setdefault(line.daemon, (Recall if line.daemon == "recall" else Migrate)(line.daemon))
        elif line.verb == "kill":
            self.daemons.pop(line.daemon, None)
        elif line.verb == "settle":
            self.settle()
        elif line.daemon in self.daemons:
            self.step(self.daemons[line.daemon])
        return None

    def step(self, daemon):
        """One act of a daemon. Tells whether it was quiet."""
        act = daemon.act()
        if isinstance(act, Copy):
            daemon.heard = self.volumes.copy(act)
        elif isinstance(act, Fetch):
            daemon.heard = self.volumes.fetch(act)
        elif isinstance(act, Offer):
            call = self.choose(daemon, act)
            answer = self.event(call)
            daemon.heard = Reply(call, answer, self.store.told)
            return is_quiet(daemon.heard)
        return True

    def settle(self):
        for daemon in self.daemons.values():
            daemon.refresh()
        # A round that steps have begun is ended first, when its daemon's turn comes.
        begun = {name for name, daemon in self.daemons.items() if not daemon.is_resting}
        quiet = False
        while not quiet:
            quiet = self.turn("recall", begun)
            for number in range(1, CALLERS + 1):
                if self.store.is_ready(f"c{number}"):
                    self.event(Call(f"c{number}", "resume"))
                    quiet = False
            quiet = quiet and self.turn("migrate", begun)

    def turn(self, name, begun):
        """Lets a daemon go on until it rests. Tells whether all of it was quiet."""
        quiet, daemon = True, self.daemons.get(name)
        for _ in range(0 if daemon is None else 2 if name in begun else 1):
            quiet &= self.step(daemon)
            while not daemon.is_resting:
                quiet &= self.step(daemon)
        begun.discard(name)
        return quiet
