"""What `python3 -m liskevar` does: files in, rows out.

    python3 -m liskevar join orders.csv payments.csv --on order,part --how left --sort amount:desc
    python3 -m liskevar sql "select .. from orders join payments using (part)" orders=orders.csv payments=payments.csv
"""

import argparse
import contextlib
import os
import re
import sys
import warnings
from collections.abc import Callable, Iterable, Sequence
from typing import Any

from .csv_files import Source, blocks, csv_lines, delimiter_of, read_csv
from .drawing import picture
from .dtypes import TYPES
from .errors import LiskevarError, Refused
from .frame import frame_of
from .job import ROW_LIMIT, Plan, Settings, job_text, plan_of
from .nodes import HOWS, Key, known
from .pieces import PARQUET_ENDS, parquet_names
from .places import told_as
from .plan_json import plan_of_job, plan_under, read_json
from .program import ask, want
from .recon import reconciliation_text
from .rows import json_rows, names_of, rows_of_lines
from .sql import sql
from .sql_text import Text
from .tables import Table

DIRECTION = r"(?:asc|desc|nulls_last|nulls_first)"


def _tables(
    given: Any, paths: Sequence[str], read: Iterable[str] | None = None, reader: Callable[..., Table] = read_csv
) -> list[Table]:  # fmt: skip
    """The tables of files, with the types and names that flags tell; Refused where one doesn't apply.

    `read` are the columns that are asked for, or None where that isn't known before they are read.
    """
    if len(given.names) > len(paths):
        raise Refused(f"--names is given {len(given.names)} times, for {len(paths)} files")
    types, found, tables = dict(map(_type_of, given.types)), set(), []
    for path, names in zip(paths, [*given.names, *[None] * len(paths)]):
        own = {it: types[it] for it in names or _header(path, given) if it in types}
        found |= set(own)
        told: dict[str, Any] = {} if read is None else {"read": {*read, *own}, "jobs": 1}
        told |= {"names": names, "types": own, "empty_is_text": given.empty_is_text}
        tables.append(reader(path, delimiter=delimiter_of(path, given.tabs), **told))
    for name in types:
        if name not in found:
            raise Refused(f"--types names {name!r}, which is no column of any file")
    return tables


def _header(path: str, given: Any) -> list[str]:
    """The names in the first line of a file, or in a Parquet file."""
    if path.endswith(PARQUET_ENDS):
        return parquet_names(path)
    return next(blocks(Source(path, delimiter_of(path, given.tabs))))[0]


def _type_of(text: str) -> tuple[str, str]:
    name, colon, dtype = text.partition(":%") if ":%" in text else text.rpartition(":")
    if not colon:
        raise Refused(f"--types {text}: wanted NAME:TYPE")
    return name, colon[1:] + dtype


def _sort_keys(texts: Sequence[str], columns: Sequence[str]) -> list[Key]:
    """The keys of --sort: NAME, or NAME:desc, NAME:nulls_last, NAME:desc,nulls_last; a name may have a colon itself."""
    keys = []
    for text in texts:
        found = None if text in columns else re.fullmatch(rf"(.+):({DIRECTION}(?:,{DIRECTION})*)", text)
        words = found[2].split(",") if found else []
        keys.append(Key(found[1] if found else text, "desc" in words, "nulls_last" in words))
    return keys


def _settings(given: Any) -> Settings:
    return Settings(given.workers, given.chunk_rows, given.row_limit)


def _text(path: str) -> str:
    """The text of a file, or of standard input where the path is `-`."""
    try:
        if path == "-":
            return sys.stdin.buffer.read().decode()
        with open(path, encoding="utf-8") as file:
            return file.read()
    except OSError as error:
        raise Refused(f"{path}: {error.strerror}") from error
    except UnicodeDecodeError as error:
        raise Refused(f"{path}, byte {error.start + 1}: not UTF-8") from error


def _put(text: str | bytes) -> None:
    sys.stdout.buffer.write(text.encode(errors="replace") if isinstance(text, str) else text)


def _answer(given: Any, plan: Plan, names: Sequence[str]) -> None:
    """Runs a plan and prints its rows, or prints what is asked for in their place."""
    if given.null and not given.csv:
        raise Refused("--null says how a null is written in CSV; it wants --csv")
    text, types = job_text(plan, _settings(given)), plan.nodes[-1].types()
    if given.job:
        _put(text)
    elif given.svg:
        _put(picture(plan))
    elif given.explain:
        _put(ask("explain", text, plan.nodes))
    else:
        lines = ask("run", text, plan.nodes, given.row_limit).splitlines()
        rows = rows_of_lines(lines, {name: types[name] for name in names})
        _put(rows.to_csv(null=given.null) if given.csv else f"{rows}\n")


def do_join(given: Any) -> None:
    """Joins two files."""
    if given.on and (given.left_on or given.right_on):
        raise Refused("--on stands for both sides; with it neither --left-on nor --right-on applies")
    for flag in ("suffix", "coalesce"):
        if getattr(given, flag) is not None and given.how in ("semi", "anti"):
            raise Refused(f"--{flag} doesn't apply to a {given.how} join, which gives the left columns alone")
    left_on, right_on = given.on or given.left_on or [], given.on or given.right_on or []
    suffix, read = "_right" if given.suffix is None else given.suffix, None
    if given.columns:
        read = [*left_on, *right_on, *given.columns, *given.sort, *(it.name for it in _sort_keys(given.sort, ()))]
        read += [it.removesuffix(suffix) for it in read]
    left, right = map(frame_of, _tables(given, given.files, read))
    how: Any = {"how": given.how, "suffix": suffix, "nulls_equal": given.nulls_equal}
    coalesce = {None: None, "yes": True, "no": False}[given.coalesce]
    with told_as("--on" if given.on else f"--how {given.how}"):
        made = left.join(right, left_on=left_on, right_on=right_on, coalesce=coalesce, **how)
    keys = _sort_keys(given.sort, made.columns)
    with told_as("--sort"):
        known((it.name for it in keys), made.columns)
        made = made._sorted(keys) if keys else made
    with told_as("--columns"):
        made = made.select(given.columns) if given.columns else made
    _answer(given, plan_of(made._ended()), made.columns)


def _plan_of_json(given: Any, reader: Callable[..., Table] = read_csv) -> tuple[Plan, list[str]]:
    """A plan that is written as JSON, and the columns that it gives."""
    values = read_json(given.plan, _text(given.plan))
    root = len(values) - 1 if isinstance(values, list) else 0
    plan = plan_under(values, root, _tables(given, given.files, None, reader))
    return plan, list(plan.nodes[-1].schema)


def do_plan(given: Any) -> None:
    """Runs a plan that is written as JSON."""
    _answer(given, *_plan_of_json(given))


def do_reconcile(given: Any) -> None:
    """Tells which rows of two files have a partner in the other."""
    tables, settings = _tables(given, given.files, given.on), _settings(given)
    with told_as("--on"):
        text = reconciliation_text(tables, given.on, given.nulls_equal, settings)
    _put(text if given.job else ask("reconcile", text, [frame_of(it)._node for it in tables], given.row_limit))


def _plan_of_query(given: Any, query: str, reader: Callable[..., Table] = read_csv) -> tuple[Plan, list[str]]:
    """The plan of a query, and the columns that it gives."""
    text = Text(query)
    named = {}
    for it in given.files:
        name, path = it.split("=", 1) if "=" in it else (os.path.splitext(os.path.basename(it))[0], it)
        if name in named:
            raise Refused("two files have one name; give them others, as NAME=FILE")
        named[name] = path
    words = {it.text.lower() for it in text.tokens}
    read = None
    if not (given.names or words & {"*", "natural"}):
        read = [it for path in named.values() for it in _header(path, given) if it.lower() in words]
    tables = _tables(given, list(named.values()), read, reader)
    made = sql(query, {name: frame_of(it) for name, it in zip(named, tables)})
    return plan_of(made._ended()), made.columns


def do_sql(given: Any) -> None:
    """Runs a query over files."""
    _answer(given, *_plan_of_query(given, given.query))


def do_distribute(given: Any) -> None:
    """Runs a plan over files larger than memory, in parts on the workers of Dask, and writes CSV."""
    from .cluster import Limits, Run, cluster
    from .distribute import Distribution, read_table, write_csv

    want("parts")
    settings = _settings(given)
    with cluster(given.scheduler, given.local) as client:
        run = Run(client, Limits(parts=given.parts), not given.quiet)

        def read(path: str, **told: Any) -> Table:
            told.pop("jobs", None)
            return read_table(run, path, told.pop("read", None), **told)

        plan, names = _plan_of_query(given, given.plan, read) if given.sql else _plan_of_json(given, read)
        if given.svg:
            _put(Distribution(run, plan, settings).picture())
            return
        types = plan.nodes[-1].types()
        told = {"types": {it: types[it] for it in names}, "null": given.null}
        try:
            with contextlib.ExitStack() as closing:
                file: Any = sys.stdout.buffer
                if given.output:
                    file = closing.enter_context(open(given.output, "wb"))
                done = write_csv(run, plan, settings, file=file, **told)
        except OSError as error:
            raise Refused(f"{given.output}: {error.strerror}") from error
    print(done, file=sys.stderr)


def do_csv(given: Any) -> None:
    """Makes CSV of the lines that the program prints."""
    names, *rows = json_rows(sys.stdin.buffer.read().splitlines())
    for it in csv_lines(names, rows, delimiter_of("", given.tabs), "\r\n" if given.crlf else "\n", given.null):
        _put(it)


def do_draw(given: Any) -> None:
    """Draws the plan of a job."""
    plan = plan_of_job(given.job_file, _text(given.job_file))
    _put(picture(plan, _text(given.explain).splitlines() if given.explain else []))


NAMES: dict[str, Any] = {"type": names_of, "metavar": "NAME,.."}
NULLS_EQUAL: dict[str, Any] = {"action": "store_true", "help": "null keys meet each other"}
NULL: dict[str, Any] = {"default": "", "metavar": "WORD", "help": "how CSV writes a null; an empty field if not told"}
TABS: dict[str, Any] = {"action": "store_true", "help": "fields are separated by tabs in every file"}
TWO_FILES: dict[str, Any] = {"nargs": 2, "metavar": "FILE", "help": "a CSV file, or a TSV file (by its ending .tsv)"}


def _common(parser: argparse.ArgumentParser, work: Callable[[Any], None]) -> None:
    add = parser.add_argument
    add("--types", action="extend", default=[], type=names_of, metavar="NAME:TYPE,..",
        help=f"types of columns: {TYPES}, or the form of dates, as %%d.%%m.%%Y")  # fmt: skip
    add("--names", action="append", default=[], **NAMES,
        help="names in place of the header's; given again for the second file, and so on")  # fmt: skip
    add("--tabs", **TABS)
    add("--empty-is-text", action="store_true", help="an empty field in a column of texts is the empty text, no null")
    add("--workers", type=int, default=4)
    add("--chunk-rows", type=int, default=65_536)
    add("--row-limit", type=int, default=ROW_LIMIT, help=f"the rows a node may have; {ROW_LIMIT:,} if not told")
    if work is do_distribute:
        return
    add = parser.add_mutually_exclusive_group().add_argument
    add("--job", action="store_true", help="print what the program reads, and don't run it")
    if work is not do_reconcile:
        add("--csv", action="store_true", help="print the rows as CSV")
        add("--explain", action="store_true", help="print the pipelines of the plan")
        add("--svg", action="store_true", help="print a picture of the plan")
        parser.add_argument("--null", **NULL)


def _join_flags(add: Callable[..., Any]) -> None:
    add("files", **TWO_FILES)
    add("--how", choices=HOWS, default="inner")
    add("--on", **NAMES, help="the key's columns, of one name on both sides")
    add("--left-on", **NAMES, help="the left side's key columns")
    add("--right-on", **NAMES, help="the right side's key columns")
    add("--nulls-equal", **NULLS_EQUAL)
    add("--coalesce", choices=("yes", "no"), help="whether keys become one column; not told: in inner and left joins")
    add("--suffix", help="what a right column's name gets where the left side has it; _right if not told")
    add("--columns", **NAMES, help="the columns of the answer, in this order")
    add("--sort", action="append", default=[], metavar="NAME[:desc][,nulls_last]",
        help="a key of the answer's order; given again for the next key")  # fmt: skip


def _distribute_flags(parser: argparse.ArgumentParser) -> None:
    parser.set_defaults(workers=1)
    add = parser.add_argument
    add("plan", metavar="PLAN", help="a JSON array of nodes, the last the root; a query with --sql")
    add("files", nargs="+", metavar="FILE", help="the files that are frame 0, 1, ..; with --sql NAME=FILE")
    add("--sql", action="store_true", help="PLAN is a query")
    add("--scheduler", metavar="ADDRESS", help="the address of Dask's scheduler, as tcp://host:8786")
    add("--local", type=int, metavar="N", help="worker processes here, where no scheduler is told")
    add("--parts", type=int, default=0, metavar="N", help="the least number of parts; the workers' if not told")
    add("--output", metavar="FILE", help="the CSV file that is written; standard output if not told")
    add("--null", **NULL)
    add("--svg", action="store_true", help="print a picture of how the plan is cut, and run no part")
    add("--quiet", action="store_true", help="no bars on standard error")


def _parser() -> argparse.ArgumentParser:
    """All commands and their flags."""
    raw = argparse.RawDescriptionHelpFormatter
    parser = argparse.ArgumentParser(prog="python3 -m liskevar", description=__doc__, formatter_class=raw)
    commands = parser.add_subparsers(dest="command", required=True, metavar="COMMAND")

    def command(work: Callable[[Any], None]) -> argparse.ArgumentParser:
        made = commands.add_parser(work.__name__.removeprefix("do_"), help=work.__doc__, description=work.__doc__)
        made.set_defaults(work=work)
        if work not in (do_csv, do_draw):
            _common(made, work)
        return made

    _join_flags(command(do_join).add_argument)
    add = command(do_plan).add_argument
    add("plan", metavar="PLAN", help="a JSON array of nodes; the last is the root")
    add("files", nargs="+", metavar="FILE", help="the files that are frame 0, 1, ..")
    add = command(do_sql).add_argument
    add("query", help="the query")
    add("files", nargs="+", metavar="NAME=FILE", help="a table's name and its file; or a file alone")
    _distribute_flags(command(do_distribute))
    add = command(do_reconcile).add_argument
    add("files", **TWO_FILES)
    add("--on", required=True, **NAMES, help="the key's columns")
    add("--nulls-equal", **NULLS_EQUAL)
    add = command(do_csv).add_argument
    add("--tabs", action="store_true", help="separate fields by tabs")
    add("--crlf", action="store_true", help="end lines by carriage return and newline, as RFC 4180 has it")
    add("--null", **NULL)
    add = command(do_draw).add_argument
    add("job_file", metavar="JOB", help="the file of the job, - for standard input")
    add("--explain", metavar="FILE", help="the lines that `liskevar explain` prints of the job")
    return parser


def main(words: Sequence[str] | None = None) -> int:
    """Does what the words say; gives the status: the program's, or 1 where this package refuses."""
    warnings.showwarning = lambda message, *_, **__: print(f"warning: {message}", file=sys.stderr)
    given = _parser().parse_args(words)
    try:
        with told_as(given.command):
            given.work(given)
        sys.stdout.flush()
    except BrokenPipeError:
        # whoever read has enough
        os.dup2(os.open(os.devnull, os.O_WRONLY), sys.stdout.fileno())
        return 141
    except LiskevarError as error:
        print(f"liskevar: {error}", file=sys.stderr)
        return error.status or 1
    return 0
