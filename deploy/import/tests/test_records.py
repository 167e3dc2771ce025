"""Reading: CSV, mappings, shares, and rows that cannot become a record."""
import os
import tempfile
import textwrap
import unittest

from land_import import shares
from land_import.errors import Stop
from land_import.findings import Findings
from land_import.mapping import Mapping
from land_import.plan import Plan, reference_of
from land_import.records import Records
from land_import.sources import Source


class Folder(unittest.TestCase):
    """A folder of CSV files with one unit; subclasses change them."""

    def setUp(self):
        folder = tempfile.TemporaryDirectory()
        self.addCleanup(folder.cleanup)
        self.folder = folder.name
        self.put("parties.csv", "key,name,kind\np,Anna,naturalPerson\nq,Ben,naturalPerson\n")
        self.put("units.csv", "key,name,document\nu,Garden,Deed 1\n")
        self.put("parcels.csv", 'unit,label,outline\nu,12,"POLYGON ((0 0, 10000 0, 10000 10000, 0 0))"\n')
        self.put("rights.csv", "unit,party,type,share\nu,p,ownership,1/1\n")

    def put(self, name, text, encoding="utf-8"):
        with open(os.path.join(self.folder, name), "w", encoding=encoding) as file:
            file.write(textwrap.dedent(text))

    def plan(self, mapping=""):
        path = None
        if mapping:
            self.put("mapping.toml", mapping)
            path = os.path.join(self.folder, "mapping.toml")
        it = Mapping(path)
        self.findings = Findings()
        self.records = Records(Source(self.folder, it.encoding, it.delimiter), it, self.findings)
        return Plan(self.records, self.findings)

    def found(self, outcome):
        return [(row[1], row[2], row[4], row[5]) for row in self.findings.list if row[0] == outcome]


class Reading(Folder):
    def test_default_names(self):
        plan = self.plan()
        self.assertEqual([act.phase for act in plan.acts], ["enrol", "enrol", "register"])
        self.assertEqual(self.findings.list, [])

    def test_template_words_default_scale(self):
        self.put("people.csv", "id;first;last;sex\n1;Anna;Meyer;F\n2;Firm;Ltd;\n")
        self.put("loans.csv", "unit;by;sum\nu;2;1234.50\n")
        self.plan("""
            [source]
            delimiter = ";"
            [parties]
            table = "people"
            key = "id"
            name = "{last}, {first}"
            kind = { column = "sex", words = { F = "naturalPerson", M = "naturalPerson" }, default = "nonNaturalPerson" }
            [[units]]
            rows = [{ key = "u", name = "Garden", document = "Deed" }]
            [[parcels]]
            rows = [{ unit = "u", label = "1", outline = "POLYGON ((0 0, 9000 0, 9000 9000, 0 0))" }]
            [[rights]]
            rows = [{ unit = "u", party = "1", type = "ownership", share = "100 %" }]
            [mortgages]
            table = "loans"
            creditor = "by"
            amount = { column = "sum", scale = 100 }
            currency = { value = "EUR" }
            document = "Loan {#}"
        """)
        self.assertEqual([(it.name, it.kind) for it in self.records.parties.values()],
                         [("Meyer, Anna", "naturalPerson"), ("Ltd, Firm", "nonNaturalPerson")])
        self.assertEqual([(it.amount, it.document) for it in self.records.mortgages.values()], [(123450, "Loan 2")])
        self.assertEqual(self.records.units["u"].rights[0].share, "1/1")

    def test_templates_are_stripped(self):
        self.put("parties.csv", "key,last,first,kind\np,Bank,,nonNaturalPerson\n")
        self.plan('[parties]\nname = "{last} {first}"\n')
        self.assertEqual(self.records.parties["p"].name, "Bank")

    def test_amounts(self):
        rows = "".join(f'u,q,"{it}",EUR,L\n' for it in ("12,5", "1_0", "1.234,5", "٣"))
        self.put("mortgages.csv", "unit,creditor,amount,currency,document\n" + rows)
        self.plan('[mortgages]\namount = { column = "amount", scale = 100 }\n')
        self.assertEqual([it.amount for it in self.records.mortgages.values()], [1250, "1_0", "1.234,5", "٣"])

    def test_where_and_distinct(self):
        self.put("all.csv", "what,id,name\nP,1,Anna\nX,2,Other\nP,1,Anna\n")
        self.plan('[parties]\ntable = "all"\nkey = "id"\nkind = { value = "naturalPerson" }\nwhere = { what = ["P"] }\ndistinct = true\n')
        self.assertEqual(list(self.records.parties), ["1"])

    def test_latin_1(self):
        self.put("parties.csv", "key,name,kind\np,Zoë,naturalPerson\nq,Ben,naturalPerson\n", "latin-1")
        with self.assertRaisesRegex(Stop, "not valid utf-8 at byte 18: set encoding"):
            self.plan()
        self.plan('[source]\nencoding = "latin-1"\n')
        self.assertEqual(self.records.parties["p"].name, "Zoë")

    def test_mapping_errors(self):
        for text, message in (("[partis]\n", "unknown section partis"), ("[parties]\nnam = 'x'\n", "unknown key nam"),
                              ("[parties]\nname = 'nome'\n", "no column nome"),
                              ("[parties]\ntable = 'x'\n", "no table x; it has"), ("[outlines]\nscale = 0\n", "positive number"),
                              ("x", "not valid TOML"),
                              ("[parties]\nname = { column = 'name', length = 3 }\n", "unknown setting length")):
            with self.subTest(text), self.assertRaisesRegex(Stop, message):
                self.plan(text)

    def test_missing_column(self):
        self.put("rights.csv", "unit,owner,type,share\nu,p,ownership,1/1\n")
        with self.assertRaisesRegex(Stop, "table rights has no column party; name the column in the mapping"):
            self.plan()

    def test_rows_that_cannot_become_a_record(self):
        self.put("parties.csv", "key,name,kind\np,Anna,naturalPerson\np,Ben,naturalPerson\n,Cid,naturalPerson\nq,Dora\n")
        self.put("rights.csv", "unit,party,type,share\nu,p,ownership,1/1\nv,p,ownership,1/1\n")
        self.plan()
        self.assertEqual([(table, line, rule) for table, line, _, rule in self.found("source")],
                         [("parties", 3, "the key occurs twice"), ("parties", 4, "the key is empty"),
                          ("parties", 5, "the row has another number of fields than the header"),
                          ("rights", 3, "the right is in a unit that does not exist")])

    def test_unused_columns_are_noted(self):
        self.put("parties.csv", "key,name,kind,born\np,Anna,naturalPerson,1970\n")
        self.plan()
        self.assertEqual(self.found("note"), [("parties", "", "", "columns that are not imported: born")])

    def test_shortening_is_reported(self):
        self.put("units.csv", f"key,name,document\nu,{'x' * 300},Deed\n")
        self.plan('[units]\nname = { column = "name", shorten = 200 }\n')
        self.assertEqual((len(self.records.units["u"].name), len(self.found("changed"))), (200, 1))


class Predicting(Folder):
    def refused(self):
        return [(table, line, reply) for table, line, reply, _ in self.found("refused")]

    def test_all_faults_of_a_unit_are_found_and_the_first_is_predicted(self):
        self.put("units.csv", "key,name,document\nu,,\n")
        self.put("parcels.csv", "unit,label,outline\nu,,POINT (0 0)\n")
        self.put("rights.csv", "unit,party,type,share\nu,nobody,lease,2/1\n")
        plan = self.plan()
        self.assertEqual(self.refused(), [("units", 2, "fault 133"), ("units", 2, "fault 133"), ("parcels", 2, "fault 133"),
                                          ("parcels", 2, "fault 110"),
                                          ("rights", 2, "fault 102"), ("units", 2, "fault 131"), ("rights", 2, "refused 205")])
        self.assertEqual(plan.acts[-1].prediction, ("fault", 133))

    def test_no_parcel_no_owner(self):
        self.put("parcels.csv", "unit,label,outline\n")
        self.put("rights.csv", "unit,party,type,share\n")
        self.plan()
        self.assertEqual([rule for *_, rule in self.found("refused")], ["the unit has no parcel", "the unit has no owner"])

    def test_lowest_refusal(self):
        self.put("rights.csv", "unit,party,type,share\nu,p,ownership,1/2\nu,p,ownership,1/3\n")
        self.assertEqual(self.plan().acts[-1].prediction, ("refused", 213))
        self.put("rights.csv", "unit,party,type,share\nu,p,ownership,1/2\nu,p,ownership,1/2\n")
        self.assertEqual(self.plan().acts[-1].prediction, ("refused", 219))

    def test_a_refused_party_cascades(self):
        self.put("parties.csv", "key,name,kind\np,Anna,person\nq,Ben,naturalPerson\n")
        self.assertEqual([act.prediction for act in self.plan().acts], [("fault", 133), None, ("refused", 205)])

    def test_ranks(self):
        self.put("mortgages.csv", "key,unit,creditor,amount,currency,document,rank\nm,u,q,5,EUR,L,3\nn,u,q,5,EUR,L,1\no,u,q,5,EUR,L,3\n")
        plan = self.plan()
        self.assertEqual(plan.ranks, {"n": 1, "m": 2, "o": 3})
        self.assertEqual([rule for *_, rule in self.found("changed")], ["the rank is renumbered: rank 3 becomes 2"])

    def test_creditors_hold_the_role_bank_only_during_the_import(self):
        self.put("mortgages.csv", "key,unit,creditor,amount,currency,document\nm,u,q,5,EUR,L\n")
        plan = self.plan()
        self.assertEqual([(act.phase, act.extra) for act in plan.acts if act.phase in ("grant", "revoke")],
                         [("grant", "bank"), ("grant", "notary"), ("revoke", "bank"), ("revoke", "notary")])
        self.assertEqual(plan.roles_after, {"p": {"citizen"}, "q": {"citizen"}, "@notary": {"citizen"}})

    def test_metres_are_recognized(self):
        self.put("parcels.csv", 'unit,label,outline\nu,12,"POLYGON ((0 0, 10.5 0, 10.5 10, 0 0))"\n')
        self.plan()
        self.assertIn(("parcels", "", "", "1 outlines have fractions; as metres, 1 of them are whole millimetres"), self.found("note"))

    def test_stated_areas(self):
        rows = "".join(f'u,{label},{area},"POLYGON ((0 0, 10000 0, 10000 10000, 0 0))"\n' for label, area in ((12, "50"), (13, "50.6")))
        self.put("parcels.csv", "unit,label,area,outline\n" + rows)
        self.plan()
        self.assertEqual([row[1] for row in self.found("note")], [3])

    def test_references(self):
        self.assertEqual(reference_of("m1"), "m1")
        self.assertEqual(len(reference_of("x" * 41)), 39)
        self.assertNotEqual(reference_of("x" * 41), reference_of("x" * 42))


class Shares(unittest.TestCase):
    def test_conversions(self):
        for text, share in (("1/2", "1/2"), (" 1 / 2 ", "1/2"), ("1", "1/1"), ("0.25", "1/4"), ("33,3 %", "333/1000"), ("50%", "1/2"),
                            ("a half", "a half"), ("-1", "-1")):
            self.assertEqual(shares.convert(text), share)

    def test_faults(self):
        for text, fault in (("1/1", None), ("2/4", None), ("0/1", 101), ("1/0", 101), ("3/2", 102), ("1/1000000001", 103),
                            ("2/2000000000", None), ("half", 132)):
            self.assertEqual(shares.fault_of(text), fault)

    def test_lists(self):
        self.assertEqual(shares.refusals_of(["1/3", "2/3"]), set())
        self.assertEqual(shares.refusals_of(["1/3", "1/3", "1/4"]), {213})
        self.assertEqual(shares.refusals_of(["1/3", "1/3", "333333333/1000000000"]), {207})
        self.assertEqual(shares.refusals_of([]), {213})


if __name__ == "__main__":
    unittest.main()
