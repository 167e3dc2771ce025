"""Findings of the dry run: a table in a CSV file, and a summary by rule."""
import csv
from dataclasses import dataclass

REFUSED, SOURCE, CHANGED, NOTE = "refused", "source", "changed", "note"
ORDER = (SOURCE, REFUSED, CHANGED, NOTE)
HEADER = ("outcome", "table", "line", "key", "reply", "rule", "remedy")


@dataclass
class Summary:
    outcome: str
    rule: str
    remedy: str
    count: int = 0
    first: str = ""


class Findings:
    """Collects findings: writes each one to the file, and counts them by rule.

    refused    the register would refuse the act of this row, with this reply
    source     the row cannot become an act: a key is missing, occurs twice or refers to nothing
    changed    the register would hold something else than the row: rounded, renumbered, shortened
    note       worth reading, changes nothing
    """

    def __init__(self, path=None):
        self.file = open(path, "w", encoding="utf-8", newline="") if path else None
        self.writer = csv.writer(self.file, lineterminator="\n") if path else None
        if self.writer:
            self.writer.writerow(HEADER)
        self.by_rule = {}
        self.list = [] if not path else None

    def add(self, outcome, table, line, key, rule, remedy, reply="", detail=""):
        """Adds a finding. `rule` and `remedy` are equal for all findings of a kind; `detail` is about the row."""
        text = f"{rule}: {detail}" if detail else rule
        if self.writer:
            self.writer.writerow((outcome, table, line, key, reply, text, remedy))
        else:
            self.list.append((outcome, table, line, key, reply, text, remedy))
        place = (outcome, reply, rule)
        if place not in self.by_rule:
            where = f"{table} line {line}" if line else table
            self.by_rule[place] = Summary(outcome, f"{reply}: {rule}" if reply else rule, remedy, 0, f"{where} {key}".strip())
        self.by_rule[place].count += 1

    def count(self, *outcomes):
        return sum(it.count for it in self.by_rule.values() if it.outcome in outcomes)

    def summary(self):
        return sorted(self.by_rule.values(), key=lambda it: (ORDER.index(it.outcome), -it.count))

    def print(self):
        for it in self.summary():
            print(f"  {it.outcome:8} {it.count:9,}  {it.rule}")
            print(f"  {'':18}  first: {it.first}")
            if it.remedy:
                print(f"  {'':18}  remedy: {it.remedy}")

    def close(self):
        if self.file:
            self.file.close()
