"""Wrong orders of the calls that publish a file, which the replay must find."""

from __future__ import annotations


def number_of(calls: list[tuple], *call) -> int:
    """The place of the call that begins so."""
    return next(i for i, each in enumerate(calls) if each[:len(call)] == call)


def without_sync_of_file(calls: list[tuple], name: str) -> None:
    """The file is not synced."""
    del calls[number_of(calls, "sync", name + ".part")]


def without_sync_of_folder(calls: list[tuple], _name: str) -> None:
    """The folder is not synced."""
    del calls[number_of(calls, "sync", "")]


def renamed_first(calls: list[tuple], name: str) -> None:
    """The file has its name before it is synced."""
    i = number_of(calls, "sync", name + ".part")
    j = number_of(calls, "rename", name + ".part", name)
    del calls[i]
    calls.insert(j, ("sync", name))


def folder_synced_first(calls: list[tuple], name: str) -> None:
    """The folder is synced before the file has its name."""
    without_sync_of_folder(calls, name)
    calls.insert(number_of(calls, "rename"), ("sync", ""))


def old_file_removed_first(calls: list[tuple], name: str) -> None:
    """The old file is removed before the new one has its name."""
    calls.insert(number_of(calls, "rename"), ("remove", name))


def written_in_its_place(calls: list[tuple], name: str) -> None:
    """The file is written under its name."""
    del calls[number_of(calls, "rename")]
    calls[:] = [(c[0], name, *c[2:]) if c[1] == name + ".part" else c for c in calls]


def bytes_after_the_sync(calls: list[tuple], name: str) -> None:
    """The last bytes are written after the sync."""
    last = max(i for i, c in enumerate(calls) if c[0] in ("write", "append"))
    calls.insert(number_of(calls, "sync", name + ".part"), calls.pop(last))


WRONG = [
    without_sync_of_file, without_sync_of_folder, renamed_first, folder_synced_first, old_file_removed_first,
    written_in_its_place, bytes_after_the_sync,
]
