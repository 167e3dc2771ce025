"""The commands of land-import."""
import argparse
import hashlib
import os
import sys
import time

from . import compare
from .client import connect
from .errors import Lost, Stop
from .findings import CHANGED, NOTE, REFUSED, SOURCE, Findings
from .journal import Journal
from .mapping import Mapping
from .plan import PHASES, Plan
from .progress import Progress
from .records import Records
from .runner import Runner
from .sources import Source

ABOUT = """Imports an existing land register into `land`: parties, groups, units with parcels and rights, restrictions, responsibilities,
mortgages and mandates. The source is a folder of CSV files, or a GeoPackage or other format that ogr2ogr reads. docs/IMPORT.md explains it.

  land-import check old/                                   the dry run: which rows the register would refuse, and why
  land new --file town.land
  land serve --file town.land --port 8080 --connections 1000 &
  land-import run old/ --port 8080                         executes the acts; run it again after an interruption
  kill $!; wait
  land-import compare old/ --file town.land                compares the register with the source
"""
STATUSES = """exit status: 0 success; 1 the dry run predicts refusals, a reply differs from its prediction, or the register differs from the
source; 2 error in the arguments, the mapping or the source; 3 the register does not answer (run again to continue); 130 interrupted"""


def arguments(words):
    parser = argparse.ArgumentParser(prog="land-import", description=ABOUT, epilog=STATUSES,
                                     formatter_class=argparse.RawDescriptionHelpFormatter)
    commands = parser.add_subparsers(dest="command", required=True, metavar="COMMAND")
    shared = argparse.ArgumentParser(add_help=False)
    shared.add_argument("source", metavar="SOURCE", help="a folder of CSV files, or a file that ogr2ogr reads")
    shared.add_argument("--mapping", metavar="FILE", help="a TOML file with the names of tables, columns and code words")
    shared.add_argument("--work", metavar="FOLDER", help="where the tables and the journal are written (default: SOURCE.import)")
    shared.add_argument("--scale", metavar="N", help="the factor from the source's unit to millimetres, such as 1000 for metres")
    shared.add_argument("--round", action="store_true", help="round coordinates to whole millimetres")
    commands.add_parser("check", parents=[shared], help="dry run: predict all refusals, execute nothing")
    run = commands.add_parser("run", parents=[shared], help="dry run, then execute the acts; continue an interrupted import")
    run.add_argument("--port", type=int, required=True, help="the port of `land serve`")
    run.add_argument("--host", default="127.0.0.1", help="its host (default: 127.0.0.1)")
    run.add_argument("--refused", choices=("stop", "skip", "send"), default="stop",
                     help="if the dry run predicts refusals: stop before the first act (default), skip these rows, or send them anyway")
    run.add_argument("--depth", type=int, default=32, help="the number of pipelined requests, 1 to 256 (default: 32)")
    run.add_argument("--wait", type=float, default=60, metavar="SECONDS",
                     help="how long to retry if the register does not answer (default: 60)")
    start = run.add_mutually_exclusive_group()
    start.add_argument("--append", action="store_true", help="add to a register that is not empty")
    start.add_argument("--recover", action="store_true", help="continue an import into a new register whose journal was lost")
    done = commands.add_parser("compare", parents=[shared], help="compare extracts of the register with the source")
    done.add_argument("--file", help="the register's file, not served")
    done.add_argument("--extracts", metavar="FOLDER", help="read party.csv, unit.csv, .. from this folder instead")
    done.add_argument("--program", metavar="PATH", help="the program `land` (default: the one of this repository, else in PATH)")
    return parser.parse_args(words)


class Import:
    """The source, read and planned."""

    def __init__(self, options):
        self.options = options
        self.work = options.work or options.source.rstrip("/") + ".import"
        self.mapping = Mapping(options.mapping)
        if options.scale:
            self.mapping.set_scale(options.scale)
        if options.round:
            self.mapping.outlines.round = True
        self.source = Source(options.source, self.mapping.encoding, self.mapping.delimiter)
        os.makedirs(self.work, exist_ok=True)
        self.findings = Findings(self.path("findings.csv"))
        began = time.monotonic()
        self.records = Records(self.source, self.mapping, self.findings)
        self.plan = Plan(self.records, self.findings, self.mapping.notary)
        self.findings.close()
        self.seconds = time.monotonic() - began

    def path(self, *names):
        return os.path.join(self.work, *names)

    def fingerprint(self):
        """Returns a digest of the source, the mapping and the options that change values."""
        files = self.source.files() + ([self.options.mapping] if self.options.mapping else [])
        digest = hashlib.sha256(f"{self.mapping.outlines}".encode())
        for path in files:
            with open(path, "rb") as file:
                digest.update(hashlib.file_digest(file, "sha256").digest())
        return digest.hexdigest()[:16]

    def print_findings(self):
        rows = ", ".join(f"{count:,} {kind}" for kind, count in self.records.rows.items())
        print(f"source: {rows or 'no rows'}")
        phases = {phase: sum(act.phase == phase and act.prediction is None for act in self.plan.acts) for phase in PHASES}
        print(f"plan: {sum(phases.values()):,} acts ({', '.join(f'{count:,} {phase}' for phase, count in phases.items() if count)}), "
              f"{self.refused():,} predicted to be refused; read and checked in {self.seconds:.1f} s")
        if self.findings.by_rule:
            print(f"findings ({self.path('findings.csv')}):")
            self.findings.print()
        else:
            print("no findings")

    def refused(self):
        return sum(act.prediction is not None for act in self.plan.acts)

    def has_faults(self):
        return self.findings.count(REFUSED, SOURCE) > 0


def check(options):
    work = Import(options)
    work.print_findings()
    if work.has_faults():
        print(f"dry run: {work.refused():,} acts would be refused, {work.findings.count(SOURCE):,} rows cannot become an act")
        return 1
    print(f"dry run: the register accepts all rows ({work.findings.count(CHANGED):,} changed, {work.findings.count(NOTE):,} notes)")
    return 0


def run(options):
    if not 1 <= options.depth <= 256:
        raise Stop("--depth must be from 1 to 256")
    work = Import(options)
    work.print_findings()
    if work.has_faults() and options.refused == "stop":
        raise Stop("the register would not accept all rows, so nothing was executed. Correct the rows, or leave them out with "
                   "--refused skip, or send them with --refused send", 1)
    journal = Journal(work.path("journal"))
    progress = Progress(0)
    runner = Runner(work.plan, journal, progress, work.fingerprint(), options.host, options.port, options.depth, options.wait,
                    options.refused)
    already = sum(journal.has(act) for act in runner.acts)
    progress.total, progress.already = len(runner.acts), already
    if already:
        progress.report(f"the journal {journal.path} has {already:,} of {len(runner.acts):,} acts; continuing")
    try:
        runner.run("append" if options.append else "recover" if options.recover else "new")
        progress.finish()
        disagreements = runner.write_disagreements(work.path("disagreements.csv"))
        return finish(work, runner, disagreements)
    finally:
        progress.end_line()
        journal.close()


def finish(work, runner, disagreements):
    """Prints the result of a run, and compares members, roles and mandates with the source."""
    journal = runner.journal
    accepted = sum((act.phase, act.key) in journal.spans for act in runner.acts)
    print(f"result: {accepted:,} acts accepted, {len(runner.acts) - accepted:,} refused; {len(disagreements):,} replies differ from the "
          "dry run")
    if disagreements:
        act, predicted, actual = disagreements[0]
        print(f"  first: {act.phase} {act.record.table} line {act.record.line} {act.record.key}: predicted {predicted}, {actual}; "
              f"all of them: {work.path('disagreements.csv')}")
    result, counts = compare_views(work, runner)
    print(f"views: {counts['members']:,} groups with their shares, {counts['roles']:,} parties with their roles, {counts['mandates']:,} "
          f"mandates; {result.differences:,} differences" + (f" ({work.path('view-differences.csv')})" if result.differences else ""))
    return 1 if disagreements or result.differences else 0


def compare_views(work, runner):
    """Compares members, roles and mandates with the source. Starts again if the connection is lost."""
    began = time.monotonic()
    while True:
        result = compare.Comparison(work.path("view-differences.csv"))
        connection = connect(runner.host, runner.port, runner.patience, runner.progress.report)
        try:
            return result, compare.compare_views(connection, work.records, work.plan, runner.journal, result)
        except Lost as reason:
            if time.monotonic() - began > runner.patience:
                raise Stop(f"{reason} while the members and roles were compared; run the same command again", 3) from None
            runner.progress.report(f"{reason}; reconnecting")
        finally:
            connection.close()
            result.close()


def find_program(name):
    """Returns the path of the program `land`."""
    here = os.path.normpath(os.path.join(os.path.dirname(os.path.realpath(__file__)), "..", "..", "..", "land"))
    return name or os.environ.get("LAND") or (here if os.access(here, os.X_OK) else "land")


def compare_register(options):
    if bool(options.file) == bool(options.extracts):
        raise Stop("compare needs either --file FILE or --extracts FOLDER")
    work = Import(options)
    if not os.path.exists(work.path("journal")):
        raise Stop(f"{work.path('journal')} does not exist: import first, or name the folder with --work")
    folder = options.extracts or work.path("extracts")
    if options.file:
        compare.extract(find_program(options.program), options.file, folder)
    journal = Journal(work.path("journal"))
    for act in work.plan.acts:
        if (act.phase, act.key) in journal.spans:
            journal.number(act)
    expected = compare.Expected(work.records, work.plan, journal)
    result = compare.Comparison(work.path("differences.csv"))
    areas, held = compare.compare_extracts(folder, expected, result)
    result.close()
    journal.close()
    print(f"{'kind':10}{'source':>12}{'imported':>12}{'register':>12}{'equal':>12}")
    for kind, counts in result.counts.items():
        print(f"{kind:10}" + "".join(f"{count:12,}" for count in counts))
    print(f"area: {compare.square_metres(expected.doubled)} m2 sent, {areas // 10**7}.{areas % 10**7:07} m2 in the register")
    if expected.rounded:
        by = float((expected.doubled - expected.source_doubled) / 2 / 10**6)
        print(f"rounding: {len(expected.rounded):,} parcels have another area than in the source, {by:+.6f} m2 in total")
    for kind in sorted(set(expected.shares) | set(held)):
        print(f"shares of type {kind}: {expected.shares[kind]} in the source, {held[kind]} in the register")
    if work.findings.count(SOURCE):
        print(f"{work.findings.count(SOURCE):,} rows of the source cannot become an act ({work.path('findings.csv')})")
    print(f"{len(expected.missing):,} rows were not imported, {result.differences - len(expected.missing):,} values differ" +
          (f" ({work.path('differences.csv')})" if result.differences or result.notes else ""))
    return 1 if result.differences else 0


def main(words=None):
    options = arguments(words)
    try:
        return {"check": check, "run": run, "compare": compare_register}[options.command](options)
    except Stop as stop:
        print(f"land-import: {stop}", file=sys.stderr)
        return stop.status
    except KeyboardInterrupt:
        print("land-import: interrupted; run the same command again to continue", file=sys.stderr)
        return 130
    except BrokenPipeError:
        sys.stderr.close()
        return 1
    except OSError as error:
        print(f"land-import: {error}; correct this, then run the same command again", file=sys.stderr)
        return 2
