"""A disk that fails under a program, by failing_disk.c. Needs gcc."""

from preloaded import Preloaded


class Disk(Preloaded):
    """The library under the program. Files that were synced are copied to the folder of that name, if there is one."""

    def __init__(self, folder, synced=None):
        super().__init__(folder, "failing_disk", "FAILING_DISK", "5Q")
        if synced:
            self.environment["FAILING_DISK_SYNCED"] = synced

    def fail(self, syncs=False, writes=False):
        """Lets syncs or writes fail from now on, or neither."""
        self.write(syncs, writes, 0, 0, False)

    def count(self):
        """Counts calls on files from now on, of which none fails."""
        self.write(False, False, 0, 0, False)

    def stop_after(self, calls, halves=False):
        """Lets each call on files fail after so many. The first of these, if it is a write, writes half of its bytes."""
        self.write(False, False, 0, calls + 1, halves)

    @property
    def calls(self):
        """How many calls on files there were."""
        return self.read()[2]
