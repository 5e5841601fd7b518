"""What a gateway has this client do with folders, in a process of its own: `python3 -m duqishom.folder_work WORK WORD..`.

    copy FOLDER TARGET    copies the last checkpoint; after each piece a line says how many bytes are copied, of how many
    why FOLDER STATUS     says why a program with this status couldn't open the folder
    holder FOLDER         says which process has the folder
    record PLACE [STORE]  begins a recording, or notes that its store is opened again

If the work isn't done, the last line says why, and the status is 1. A copy is stopped by the end of the input.
"""

from __future__ import annotations

import select
import sys
from collections.abc import Sequence

from duqishom.copies import NotCopied, copy_checkpoint
from duqishom.folders import FolderDamaged, holder_of, why_no_folder, why_not_opened
from duqishom.progress import Reached
from duqishom.recording import Recording


def note(reached: Reached) -> None:
    """Says how far a copy is. NotCopied if it is to stop."""
    print(reached.done, reached.total or 0, flush=True)
    if select.select([sys.stdin], [], [], 0)[0]:
        raise NotCopied("the copy was stopped: its client has left, or the gateway ends")


def work(kind: str, words: Sequence[str]) -> None:
    """Does some work."""
    match kind, *words:
        case "copy", folder, target:
            copy_checkpoint(folder, target, note)
        case "why", folder, status:
            print(why_no_folder(folder) or why_not_opened(folder, int(status)))
        case "holder", folder:
            print(holder_of(folder) or "")
        case "record", place, *store:
            Recording(place, *store).close()


def main(words: Sequence[str]) -> int:
    """Does the work of the words. The status is 0, or 1 if it isn't done."""
    try:
        work(words[0], words[1:])
    except (OSError, ValueError, FolderDamaged) as failure:
        print(failure)
        return 1
    return 0


if __name__ == "__main__":
    sys.exit(main(sys.argv[1:]))
