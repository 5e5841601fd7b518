"""`python3 -m duqishom`: a command shell for a store, used from a terminal, a pipe or the command line, and
subcommands."""

from __future__ import annotations

import argparse
import sys
from collections.abc import Sequence
from contextlib import nullcontext

from duqishom import backups, cluster, dumps, inspection, serving, statistics, watch_command, web
from duqishom.pieces import SUMS_FORMAT, UNSUMMED_FORMAT
from duqishom.program import ProgramEnded
from duqishom.refusals import Refused
from duqishom.remote import shown_address, socket_at
from duqishom.store import Store
from duqishom.tellings import Form
from duqishom.terminal import editing, lines
from duqishom.version import VERSION
from duqishom.words import LINES, Quit, Words, answer_all, complete, help_of, shown

GREETING = "duqishom {version}: {store}. The line help shows all lines; quit or the end of the input ends it."

DESCRIPTION = """\
Asks a store in words. Those of the command line are one line; without any,
each line of the input is one. LINE --help shows the help of one. Subcommands
have options of their own."""

# The subcommands by their first words, each with the function that runs it on the words after it.
COMMANDS = {
    "inspect": inspection.main,
    "serve": serving.main,
    "stats": statistics.main,
    "watch": watch_command.main,
    "web": web.main,
    "verify": backups.verify_main,
    "restore": backups.restore_main,
    "dump": dumps.dump_main,
    "load": dumps.load_main,
    "cluster": cluster.main,
}

# The subcommands as the help shows them.
SHOWN = (
    ("inspect FOLDER", "looks into a folder, without a program"),
    ("serve --socket PATH", "serves a store to many clients"),
    ("stats --socket PATH", "what such a gateway counts"),
    ("watch --socket PATH", "the commits to rows with a prefix, as they come"),
    ("web --socket PATH", "a web page that says how a store is"),
    ("verify FOLDER", "reads all of a folder, or of a backup"),
    ("restore BACKUP FOLDER", "copies a backup back"),
    ("cluster init, status", "makes and shows a store in a pool of a Ceph cluster"),
    ("cluster audit FOLDER", "judges recordings of all servers of a cluster"),
    ("dump, load", "write the cells of a store as lines of JSON, and read them"),
)


def epilog() -> str:
    """The lines and the subcommands, in two tables."""
    table = [(line.usage, line.help) for line in LINES if line.help]
    parts = (("lines", table), ("subcommands", SHOWN))
    return "\n\n".join("\n".join([f"{name}:", *(f"  {form:33}{does}" for form, does in part)]) for name, part in parts)


def parser() -> argparse.ArgumentParser:
    """The parser of the command line."""
    made = argparse.ArgumentParser(
        prog="duqishom",
        description=DESCRIPTION,
        epilog=epilog(),
        formatter_class=argparse.RawDescriptionHelpFormatter,
    )
    made.add_argument("--program", help="the tabletd to start: that of TABLETD, this package or PATH if none is named")
    place = made.add_mutually_exclusive_group()
    place.add_argument("--dir", help="the folder of the store: a new store in memory if none is named")
    place.add_argument(
        "--socket",
        metavar="PATH",
        type=socket_at,
        help="ask the store that a gateway serves there, or at HOST:PORT; no program is started",
    )
    made.add_argument(
        "--log",
        action=argparse.BooleanOptionalAction,
        help="have the folder get a log, or a new one get none: a new one gets a log if nothing is said",
    )
    made.add_argument("--new", action="store_true", help="with --no-log: the folder never had a root, whatever files are there")
    formats = "3 has the folder's files get checksums from now on, or 2 a new one none: a new one gets them if nothing is said"
    made.add_argument("--format", metavar="F", type=int, choices=(UNSUMMED_FORMAT, SUMS_FORMAT), help=formats)
    made.add_argument("--log-bytes", metavar="L", help="given to the program: bytes of a log before a checkpoint empties it")
    made.add_argument("--flush", metavar="N", help="given to the program: how many entries a memtable has before it is compacted")
    made.add_argument("--flush-bytes", metavar="B", help="given to the program: how many bytes of entries compact a memtable too")
    made.add_argument("--merge", metavar="M", help="given to the program: how many files a tablet has before some are merged")
    made.add_argument("--cache", metavar="C", help="given to the program: how many blocks of each file stay in memory")
    made.add_argument("--session-bytes", metavar="S", help="given to the program: how many bytes of writes all sessions may buffer")
    made.add_argument("--no-checkpoint", action="store_true", help="make no checkpoint of a folder at the end")
    made.add_argument("--record", metavar="FOLDER", help="keep all frames there, for tablet_audit")
    form = made.add_mutually_exclusive_group()
    form.add_argument("--json", dest="form", action="store_const", const=Form.JSON, help="show each answer as a line of JSON")
    form.add_argument("--raw", dest="form", action="store_const", const=Form.RAW, help="show values as their bytes, with a line's end")
    made.set_defaults(form=Form.TEXT)
    made.add_argument("--version", action="version", version=VERSION)
    made.add_argument("words", metavar="LINE", nargs=argparse.REMAINDER, help="one line to be done")
    return made


def place_of(options: argparse.Namespace) -> str:
    """The store that is asked, in words."""
    if options.socket:
        return f"the store that is served at {shown_address(options.socket)}"
    return f"the store of {options.dir}" if options.dir else "a new store in memory, which ends with this command"


def main(given: Sequence[str]) -> int:
    """Runs the command. The status is 0 if each line was done, 1 if one was not, and 2 if the program failed."""
    if given[:1] and given[0] in COMMANDS:
        try:
            return COMMANDS[given[0]](given[1:])
        except KeyboardInterrupt:
            return 130
    parsing = parser()
    options = parsing.parse_args(given)
    if options.log and options.dir is None:
        parsing.error("--log needs --dir")
    if options.format and options.dir is None:
        parsing.error("--format needs --dir")
    told = help_of(options.words)
    if told is not None:
        print(told)
        return 0
    try:
        with opened(options) as store:
            return asked(Words(store, options.socket), options)
    except (OSError, ProgramEnded, Refused) as failure:
        print(f"duqishom: {failure}", file=sys.stderr)
        return 2
    except KeyboardInterrupt:
        return 130


def opened(options: argparse.Namespace) -> Store:
    """The store that the options name."""
    named = ("log-bytes", "flush", "flush-bytes", "merge", "cache", "session-bytes")
    words = [word for name in named if (value := getattr(options, name.replace("-", "_"))) for word in (f"--{name}", value)]
    return Store(
        options.program,
        folder=options.dir,
        words=words,
        checkpoint_at_close=not options.no_checkpoint,
        socket=options.socket,
        record=options.record,
        log=options.log,
        new=options.new,
        checksums=None if options.format is None else options.format == SUMS_FORMAT,
    )


def asked(words: Words, options: argparse.Namespace) -> int:
    """Does the line of the options, or else those of the input. Returns 0 if each was done, and 1 if one was not."""
    if options.words:
        try:
            is_done, told = words.answer_words(options.words)
        except Quit:
            return 0
        is_shown = shown(told, options.form)
        return 0 if is_done and is_shown else 1
    is_terminal = sys.stdin.isatty()
    by_pages = is_terminal and sys.stdout.isatty()
    if is_terminal:
        print(GREETING.format(version=VERSION, store=place_of(options)))
    with editing(complete) if is_terminal else nullcontext():
        return 0 if answer_all(words, lines(is_terminal), options.form, by_pages) else 1


def run() -> int:
    """Runs the command on the words of the command line."""
    return main(sys.argv[1:])


if __name__ == "__main__":
    sys.exit(run())
