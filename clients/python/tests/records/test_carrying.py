"""`karzhoul dump` and `karzhoul load`: what is carried over, and what is refused."""

from __future__ import annotations

import io
import json
import os
import unittest
from unittest import mock

import karzhoul
from karzhoul.records import dumping, loading
from karzhoul.records.dumping import tops_in_order
from karzhoul.records.progress import Progress
from karzhoul.records.records import shapes_of
from karzhoul.records.writing import Writer

from ..carried import CARRIED, Carrying, cells
from ..support import needs_program

PERSON = '{"entity":"Person","key":[%d],"version":%d,"values":{"name":"%s"}}\n'


@needs_program
class Dumps(Carrying):
    def test_a_dump_that_is_loaded_gives_the_same_cells(self) -> None:
        self.stored()
        before = cells(self.db)
        dump = self.dumped(self.db)
        self.assertEqual(cells(self.db), before)
        for size in ("1", "3", "1000", "0"):
            other = self.place / f"{size}.db"
            out = self.loaded(other, dump, "--size", size)
            self.assertTrue(out.startswith("19 rows are stored; listeners"), out)
            self.assertEqual(cells(other), before, size)
            self.assertEqual(self.dumped(other), dump)

    def test_a_page_may_be_as_small_as_one_object(self) -> None:
        self.stored()
        dump = self.dumped(self.db)
        with mock.patch.object(dumping, "_LEAST_PAGE", 1), mock.patch.object(dumping, "_VALUES", 9):
            self.assertEqual(self.dumped(self.db), dump)

    def test_what_a_line_says(self) -> None:
        self.stored()
        lines = self.dumped(self.db).splitlines()
        said = [json.loads(line) for line in lines]
        self.assertEqual((said[0], said[-1]), ({"dump": 1}, {"rows": 19}))
        self.assertIn({"entity": "Tag", "key": [{"hex": "08"}]}, said)
        self.assertIn({"entity": "Person", "next": 5}, said)
        self.assertIn({"entity": "Order", "next": 4}, said)
        told = {"values": {"name": "Eve 2", "room": 7}, "links": {"last": None}}
        self.assertIn({"entity": "Clerk", "key": [3], "version": 3, **told}, said)
        first = next(each for each in said if each.get("entity") == "Order")
        values = {"status": "shipped", "weight": -7, "seal": {"hex": ""}, "loads": None}
        self.assertEqual(first["values"], values)
        spot = [1, 's3,"é\n']
        self.assertEqual(first["links"], {"customer": [3], "spot": spot, "before": [3]})
        self.assertEqual(first["pairs"], {"like": [], "spots": []})

    def test_no_listener_hears_of_a_dump(self) -> None:
        self.stored()
        with self.opened(self.db) as app:
            order = app.create_entity_manager().find("Order", 1)
            assert order is not None
            self.assertEqual(order.loads, 1)  # That a `PostLoad` listener has assigned.
        self.assertNotIn('"loads":1', self.dumped(self.db))

    def test_a_file_is_there_once_it_is_whole(self) -> None:
        self.stored()
        file = self.place / "dump.jsonl"
        status, out, _ = self.ran("dump", self.db, "-o", file)
        self.assertEqual((status, out), (0, f"{file}: 19 objects of 5 entities\n"))
        self.assertEqual(file.read_text(encoding="utf-8"), self.dumped(self.db))
        file.unlink()
        with mock.patch("karzhoul.cli.carrying.Ended", side_effect=KeyboardInterrupt):
            self.assertEqual(self.ran("dump", self.db, "-o", file)[0], 130)
        self.assertEqual([path.name for path in self.place.glob("dump*")], [])

    def test_the_objects_of_a_query(self) -> None:
        self.stored()
        query = "SELECT o, o.id FROM Order o WHERE o.id > 1"
        some = self.dumped(self.db, "--query", query)
        said = [json.loads(line) for line in some.splitlines()]
        self.assertEqual([each.get("key") for each in said], [None, [2], [3], None])
        self.assertEqual(said[-1], {"rows": 2})
        why, left = self.refused(self.other, some)
        lacks = "which is neither stored nor in the file"
        self.assertEqual(why, f"file:2: customer leads to Person 1, {lacks}")
        self.assertEqual(left, "nothing was stored")
        # With what they lead to, and that leads to.
        linked = self.dumped(self.db, "--linked", "--query", query)
        self.loaded(self.other, linked)
        self.assertEqual(self.dumped(self.other, "--query", query), some)
        self.assertEqual(len(linked.splitlines()), 2 + 3 + 2 + 5 + 9)
        status, _, err = self.ran("dump", self.db, "--query", "SELECT o.id FROM Order o")
        self.assertEqual((status, "select a variable" in err), (4, True))
        self.assertEqual(self.ran("dump", self.db, "--linked")[0], 2)
        status, _, err = self.ran("dump", self.db, "--query", "SELECT o FROM Ordr o")
        self.assertEqual(status, 4)
        self.assertIn("the query is refused: IllegalArgument(typing)\n  1:15: Ordr: ", err)

    def test_what_others_lead_to_comes_before_them(self) -> None:
        shapes = shapes_of(json.loads(CARRIED.read_text(encoding="utf-8")))
        self.assertEqual(tops_in_order(shapes), ["Tag", "Person", "Spot", "Order"])

    def test_a_store_that_is_not_there_is_not_made(self) -> None:
        status, _, err = self.ran("dump", self.db)
        self.assertEqual((status, err), (4, "karzhoul: there is no file app.db\n"))
        self.assertFalse(self.db.exists())


@needs_program
class Csv(Carrying):
    def test_a_csv_of_an_entity_is_carried_over(self) -> None:
        self.stored()
        written = {}
        for entity in ("Tag", "Spot", "Clerk"):
            written[entity] = self.dumped(self.db, "--csv", entity)
        self.assertEqual(written["Tag"].splitlines()[:3], ["code", "00", "01"])
        self.assertEqual(written["Clerk"], "id,version,name,room,last\n3,3,Eve 2,7,\n")
        head = "at.row,at.shelf,version,label,r1.at.row,r1.at.shelf,r2.at.row,r2.at.shelf,"
        self.assertTrue(written["Spot"].startswith(f"{head}r3,r4,r5,r6,r7,r8,r9\n"))
        self.assertIn('\n0,"s2,""é\n",70,,1,"s3,""é\n",', written["Spot"])
        status, out, err = self.ran("dump", self.db, "--csv", "Person")
        self.assertEqual((status, out), (0, "id,version,name,last\n1,0,Ada,2\n"))
        self.assertEqual(err, "karzhoul: 1 objects are of Clerk: --csv Clerk writes them\n")
        self.loaded(self.other, written["Tag"], "--csv", "Tag")
        spots = written["Spot"].replace(",1,,\n", ",,,\n").replace(",1,\n", ",,\n")
        self.loaded(self.other, spots, "--csv", "Spot", "--listeners", "skip")
        self.assertEqual(self.dumped(self.other, "--csv", "Spot"), spots)
        orders = self.dumped(self.db, "--csv", "Order").splitlines()
        self.assertEqual(orders[0], "id,version,status,weight,seal,loads,customer,spot.at.row,"
                                    "spot.at.shelf,before,like,spots")
        self.assertIn(',"[1, 3]",', orders[3])
        self.assertIn('"[[-2, ""s0,', orders[3])

    def test_null_and_the_empty_text(self) -> None:
        text = 'name,last\r\n"",\r\n,\r\n\r\n" a ""b""\n",\r\n'
        self.assertEqual(self.loaded(self.db, text, "--csv", "Person"), "3 rows are stored\n")
        with self.opened(self.db) as app:
            names = app.create_entity_manager().query("SELECT p.name FROM Person p")
        self.assertEqual(names, ["", None, ' a "b"\n'])
        wanted = 'id,version,name,last\n1,0,"",\n2,0,,\n3,0," a ""b""\n",\n'
        self.assertEqual(self.dumped(self.db, "--csv", "Person"), wanted)

    def test_a_mark_of_byte_order_is_none_of_the_first_name(self) -> None:
        self.loaded(self.db, "\ufeffname\nAda\n", "--csv", "Person")

    def test_rows_that_are_none(self) -> None:
        told = {
            "nam\nAda\n": "1: Person has no column 'nam': did you mean 'name'?",
            "age\n7\n": "1: Person has no column 'age'; there are id, version, name, last",
            "name,name\na,b\n": "1: the column name stands here twice",
            "": "1: the first row is to name the columns",
            "id\n1\n\nx\n": "4: id is to be a whole number, and is 'x'",
            "id,name\n1,a\n1,b\n": "3: Person 1: this key stands in line 2 already",
            "id,name\n1,a\n,b\n": "3: Person: some rows of Person have keys, and others have none",
            'name\n"a\nb"\nc,d\n': "4: 1 cells are to stand here, and there are 2",
            'name\na"b\n"\n': "2: a quote stands in a cell that isn't quoted as a whole",
            'name\nc\n"a\n': "3: a quoted cell isn't closed",
            "name,last\na,9\n": "2: last leads to Order 9, which is neither stored nor in the file",
            f"id\n{2**63}\n": f"2: id is {2**63}, which is no whole number of 64 bits",
        }
        for text, why in told.items():
            with self.subTest(text):
                told_of = self.refused(self.db, text, "--csv", "Person")
                self.assertEqual(told_of, [f"file:{why}", "nothing was stored"])
        spots = {
            "at.row\n1\n": "1: the column at.shelf is missing, which is of the key",
            "at.row,at.shelf,r1.at.row\n1,a,\n":
                "1: the column r1.at.shelf is missing beside r1.at.row",
            "at.row,at.shelf\n1,\n": "2: the key has null in it",
            "at.row,at.shelf,r1.at.row,r1.at.shelf\n1,a,1,\n": "2: r1 has null in it",
            "at.row,at.shelf,r3\n1,a,0x\n":
                "2: bytes are pairs of hexadecimal digits, and not '0x'",
        }
        for text, why in spots.items():
            with self.subTest(text):
                self.assertEqual(self.refused(self.db, text, "--csv", "Spot")[0], f"file:{why}")
        why = self.refused(self.db, "customer,like\n1,x\n", "--csv", "Order")[0]
        self.assertEqual(why, "file:2: like is to be a list of keys, as [1, 2], and is 'x'")
        self.assertFalse(self.db.exists())
        self.assertEqual(self.ran("load", self.db, "x", "--csv", "Nobody")[0], 2)


@needs_program
class Loads(Carrying):
    def test_lines_that_are_no_rows(self) -> None:
        way = "; a CSV is loaded by --csv ENTITY"
        told = {
            "x": f"this is no JSON: Expecting value: line 1 column 1 (char 0){way}",
            "7": f'a line is an object, as {{"entity":..}}, and not 7{way}',
            '{"dump":2}': "this is a dump of the format 2, and 1 is served",
            '{"entity":"Persn"}': "there is no entity 'Persn': did you mean 'Person'?",
            '{"entity":"Person","value":{}}':
                "a line has no member 'value': did you mean 'values'?",
            '{"entity":"Person","values":{"nam":1}}':
                "'nam' is none of the values: did you mean 'name'?",
            '{"entity":"Person","values":{"name":7}}': "name is to be a text, and is 7",
            '{"entity":"Person","values":{"name":"\\ud800"}}': "name has half a character",
            '{"entity":"Person","key":[1,2]}': "the key is to be a list of id, and is [1, 2]",
            '{"entity":"Tag","version":1}': "Tag has no version",
            '{"entity":"Tag"}': "Tag: the key is missing",
            '{"entity":"Tag","next":1}':
                "'next' is a number from 1, alone with an entity whose key is generated",
            '{"entity":"Clerk","key":[1]}': "Clerk 1: room is required, and null",
        }
        for text, why in told.items():
            with self.subTest(text):
                refused = self.refused(self.other, text)
                self.assertEqual(refused, [f"file:1: {why}", "nothing was stored"])
        self.assertFalse(self.other.exists())

    def test_files_that_were_cut(self) -> None:
        good, begun = PERSON % (1, 0, "Ada"), '{"dump":1}\n'
        way = "where that is meant, take its first and its last line out"
        told = {
            f"{good}{good}": "2: Person 1: this key stands in line 1 already",
            f"{begun}{good}": "2: the file ends before the dump does: it was cut off",
            f'{begun}{good}{{"rows":2}}\n': f"3: the dump was of 2 objects, and has 1: {way}",
            f'{good}{{"rows":1}}\n': f"2: the dump was of 1 objects, and has 1: {way}",
            f'{begun}{{"rows":0}}\n{good}': "3: a line stands behind the end of the dump",
            f'{begun}{good}{begun}': "3: another dump begins here: load each by itself",
        }
        for text, why in told.items():
            with self.subTest(text):
                self.assertEqual(self.refused(self.other, text)[0], f"file:{why}")

    def test_keys_that_can_not_be_given(self) -> None:
        ways = "--new-keys gives new ones, and"
        told = {
            PERSON % (2, 0, "x") + PERSON % (1, 0, "x"): (
                "2: Person 1: 2 was given out before, and generated keys rise: "
                f"{ways} has links follow"
            ),
            PERSON % (2**63 - 1, 0, "x"): f"1: Person {2**63 - 1}: this number is never given",
            PERSON % (90_000_000, 0, "x"): (
                "1: Person 90000000: 89,999,999 numbers before it are no row's, and each takes a "
                f"call to give out: {ways} leaves none out"
            ),
        }
        for text, why in told.items():
            with self.subTest(text):
                self.assertEqual(self.refused(self.other, text)[0], f"file:{why}")

    def test_a_link_to_another_class(self) -> None:
        self.mapping["entities"][1]["relations"].append(
            {"name": "boss", "kind": "manyToOne", "target": "Clerk", "column": 9}
        )
        self.addCleanup(self.mapping["entities"][1]["relations"].pop)
        self.written("mapping.json", json.dumps(self.mapping))
        line = '{"entity":"Person","key":[%d],"links":{"boss":[1]}}\n'
        why = self.refused(self.db, PERSON % (1, 0, "Ada") + line % 2)[0]
        self.assertEqual(why, "file:2: boss leads to Person 1, which is no Clerk")
        self.loaded(self.db, PERSON % (1, 0, "Ada"))
        why = self.refused(self.db, line % 2)[0]
        self.assertEqual(why, "file:1: boss leads to Person 1, which is no Clerk")

    def test_it_stops_at_a_row_and_goes_on_from_there(self) -> None:
        order = '{"entity":"Order","key":[%d],"values":{"status":"%s"},"links":{"customer":[1]}}\n'
        rows = [PERSON % (1, 0, "Ada"), *(order % (n, "placed") for n in range(1, 8))]
        rows[6] = order % (6, "lost")
        why, left = self.refused(self.db, "".join(rows), "--size", "3")
        lost = "Persistence(converter): a converter doesn't take status 'lost'"
        self.assertEqual(why, f"file:7: Order 6: {lost}")
        rest = "load the file again with --update, once that is mended"
        self.assertEqual(left, f"the 6 rows up to line 6 are stored: {rest}")
        rows[6] = order % (6, "shipped")
        self.assertEqual(self.refused(self.db, "".join(rows))[1], "nothing was stored")
        self.assertTrue(self.loaded(self.db, "".join(rows), "--update").startswith("8 rows"))
        self.loaded(self.other, "".join(rows))
        self.assertEqual(cells(self.db), cells(self.other))

    def test_a_transaction_for_all(self) -> None:
        rows = "".join(PERSON % (n, 0, "x") for n in range(1, 6))
        rows += '{"entity":"Order","key":[1],"links":{"customer":[1]},"values":{"status":"lost"}}\n'
        why, left = self.refused(self.db, rows, "--size", "0")
        self.assertEqual(left, "nothing was stored")
        self.assertTrue(why.startswith("file:6: Order 1: "), why)

    def test_an_owner_of_what_has_one(self) -> None:
        spot = '{"entity":"Spot","key":[1,"a"]}\n'
        order = '{"entity":"Order","key":[%d],"links":{"customer":[1],"spot":[1,"a"]}}\n'
        why = self.refused(self.db, PERSON % (1, 0, "") + spot + order % 1 + order % 2)[0]
        owned = "Persistence(unique): what it leads to has another owner"
        self.assertEqual(why, f"file:4: Order 2: {owned}")

    def test_a_row_and_rows_that_lead_round(self) -> None:
        links = '"links":{"customer":[1],"before":[%d]},"values":{"status":"%s"}'
        order = f'{{"entity":"Order","key":[%d],{links}}}\n'
        rows = [PERSON % (1, 0, "")] + [order % (n, n % 3 + 1, "placed") for n in (1, 2)]
        why = self.refused(self.db, "".join(rows) + order % (3, 1, "lost"), "--size", "1")
        self.assertTrue(why[0].startswith("file:2: Order 1, or a row up to line 4: P"), why)
        self.assertIn("1 rows up to line 1 are stored", why[1])
        self.loaded(self.other, "".join(rows) + order % (3, 1, "shipped"), "--size", "1")

    def test_a_dry_run_stores_nothing(self) -> None:
        self.stored()
        dump = self.dumped(self.db)
        out = self.loaded(self.other, dump, "--dry-run")
        self.assertEqual(out, "19 rows can be stored, and none was\n")
        self.assertFalse(self.other.exists())
        before = cells(self.db)
        self.assertEqual(self.loaded(self.db, dump, "--dry-run", "--update"), out)
        self.assertEqual(cells(self.db), before)
        row = '{"entity":"Order","values":{"status":"lost"},"links":{"customer":[1]}}\n'
        rows = '{"entity":"Person"}\n' * 3 + row
        why, left = self.refused(self.db, rows, "--dry-run", "--size", "2")
        self.assertEqual(why.partition(": P")[0], "file:4: Order")
        self.assertEqual(left, "nothing was stored, and the 2 rows up to line 2 can be")

    def test_an_update_gives_stored_objects_the_values_of_rows(self) -> None:
        self.stored()
        dump = self.dumped(self.db)
        with self.opened(self.db) as app, app.create_entity_manager() as em, em.transaction():
            em.execute_update("UPDATE Person p SET p.name = 'x'")
            em.execute_update("UPDATE Spot s SET s.version = 3")
            for order in em.query("SELECT o FROM Order o"):
                order.like, order.spot, order.seal = [], None, b"x"
        self.assertNotEqual(self.dumped(self.db), dump)
        self.loaded(self.db, dump, "--update", "--size", "4")
        self.assertEqual(self.dumped(self.db), dump)
        # What a row doesn't tell stays.
        self.loaded(self.db, '{"entity":"Clerk","key":[3],"values":{"name":"E"}}\n', "--update")
        self.assertEqual(self.dumped(self.db, "--csv", "Clerk").splitlines()[1], "3,4,E,7,")
        why = self.refused(self.db, PERSON % (3, 0, "E"), "--update")[0]
        self.assertEqual(why, "file:1: Person 3: the object of this key that is stored is a Clerk")

    def test_new_keys_and_the_links_that_follow(self) -> None:
        self.loaded(self.db, "name\nfirst\nsecond\n", "--csv", "Person")
        rows = PERSON % (1, 2, "Ada") + PERSON % (7, 0, "Bob")
        rows += '{"entity":"Order","key":[9],"links":{"customer":[7]}}\n'
        rows += '{"entity":"Order","key":[8],"links":{"customer":[1],"before":[9]}}\n'
        for size in ("1", "100"):
            self.loaded(self.db, rows, "--new-keys", "--size", size)
        orders = "SELECT o.id, c.id, c.name, c.version, b.id FROM Order o JOIN o.customer c"
        with self.opened(self.db) as app:
            found = app.create_entity_manager().query(f"{orders} LEFT JOIN o.before b")
        first = [[1, 4, "Bob", 0, None], [2, 3, "Ada", 2, 1]]
        self.assertEqual(found, [*first, [3, 6, "Bob", 0, None], [4, 5, "Ada", 2, 3]])

    def test_many_numbers_that_no_row_has(self) -> None:
        rows = "".join(PERSON % (n, 0, "x") for n in (1, 2, 30, 31))
        rows += '{"entity":"Person","next":80}\n'
        with mock.patch.object(loading, "_SLICE", 7):
            self.loaded(self.db, rows)
            lost = '{"entity":"Order","values":{"status":"lost"},"links":{"customer":[31]}}\n'
            why, left = self.refused(self.other, rows + lost, "--size", "0")
            self.assertEqual(left, "nothing was stored")
            self.assertEqual([cell for cell in cells(self.other) if cell[0] == 0], [])
        self.loaded(self.other, rows, "--size", "2")
        self.assertEqual(cells(self.db), cells(self.other))
        self.assertIn('{"entity":"Person","next":80}', self.dumped(self.db))
        # Behind what is stored, the numbers go on.
        self.loaded(self.db, PERSON % (90, 0, "y"))
        self.assertIn('{"entity":"Person","next":91}', self.dumped(self.db))

    def test_a_run_that_has_made_all_its_objects_is_followed_by_another(self) -> None:
        self.stored()
        dump, write = self.dumped(self.db), Writer.write
        calls = []

        def limited(writer: Writer, rows: object, is_trial: bool = False) -> None:
            write(writer, rows, is_trial)  # type: ignore[arg-type]
            calls.append(rows)
            if len(calls) in (2, 6):
                raise karzhoul.ObjectLimit()

        with mock.patch.object(Writer, "write", limited):
            self.loaded(self.other, dump, "--size", "3")
        self.assertEqual(cells(self.other), cells(self.db))

    def test_an_end_of_the_program_is_told_with_what_is_stored(self) -> None:
        write = Writer.write

        def killed(writer: Writer, rows: object, is_trial: bool = False) -> None:
            write(writer, rows, is_trial)  # type: ignore[arg-type]
            if rows[0].line > 1:  # type: ignore[index]
                os.kill(writer.app.program.pid, 9)

        file = self.written("file", "".join(PERSON % (n, 0, "x") for n in range(1, 4)))
        with mock.patch.object(Writer, "write", killed):
            status, _, err = self.ran("load", self.db, file, "--size", "1")
        self.assertEqual(status, 4)
        self.assertIn("at least the 1 rows up to line 1 are stored", err)
        self.assertTrue(self.loaded(self.db, (self.place / "file").read_text(), "--update"))

    def test_an_interrupt_is_told_with_what_is_stored(self) -> None:
        file = self.written("file", PERSON % (1, 0, "x"))
        with mock.patch.object(Writer, "write", side_effect=KeyboardInterrupt):
            status, _, err = self.ran("load", self.db, file)
        self.assertEqual((status, err.splitlines()[-1]), (130, "karzhoul: interrupted"))
        self.assertIn("at least the 0 rows up to line 0 are stored", err)


@needs_program
class Listeners(Carrying):
    ROWS = PERSON % (4, 0, "Ada") + (
        '{"entity":"Order","key":[3],"values":{"status":"shipped"},"links":{"customer":[4]}}\n'
    )

    def statuses(self) -> object:
        with self.opened(self.db) as app:
            return app.create_entity_manager().query("SELECT o.id, o.status, o.loads FROM Order o")

    def test_they_hear_nothing_of_json_lines(self) -> None:
        self.loaded(self.db, self.ROWS)
        self.assertEqual(self.statuses(), [[3, "shipped", None]])

    def test_they_hear_where_that_is_wanted(self) -> None:
        self.loaded(self.db, self.ROWS, "--listeners", "run")
        self.assertEqual(self.statuses(), [[3, "placed", None]])

    def test_they_hear_of_csv(self) -> None:
        self.loaded(self.db, PERSON % (4, 0, "Ada"))
        self.loaded(self.db, "id,status,customer\n3,,4\n", "--csv", "Order")
        self.assertEqual(self.statuses(), [[3, "placed", None]])
        self.loaded(self.db, "id,status,customer\n5,,4\n", "--csv", "Order", "--listeners", "skip")
        self.assertEqual(self.statuses(), [[3, "placed", None], [5, None, None]])

    def test_one_that_refuses_a_row(self) -> None:
        listener = {"name": "named", "events": ["PrePersist"]}
        function = {"name": "named", "make": "require", "attribute": "name"}
        mapping = json.loads(json.dumps(self.mapping))
        mapping["entities"][1]["listeners"] = [listener]
        mapping["functions"].append(function)
        self.written("mapping.json", json.dumps(mapping))
        why = self.refused(self.db, "id,name\n2,Ada\n5,\n", "--csv", "Person")[0]
        self.assertEqual(why, "file:3: Person 5: Listener(require name)")


class Terminal(io.StringIO):
    def isatty(self) -> bool:
        return True


class Told(unittest.TestCase):
    def test_a_line_on_a_terminal(self) -> None:
        stream, now = Terminal(), [100.0]
        with Progress(4000, stream, lambda: now[0]) as told:
            for done, at in ((1000, 102.0), (1001, 102.01), (4000, 103.0)):
                now[0] = at
                told(done)
        lines = stream.getvalue().split("\r")
        self.assertEqual(lines[1], "1,000 of 4,000 rows, 500 a second, 0:06 left")
        self.assertEqual(lines[2].rstrip(), "4,000 of 4,000 rows, 1,333 a second, 0:00 left")
        self.assertEqual((lines[3].strip(), lines[4]), ("", ""))

    def test_none_in_a_pipe(self) -> None:
        stream = io.StringIO()
        with Progress(10, stream) as told:
            told(5)
        self.assertEqual(stream.getvalue(), "")


if __name__ == "__main__":
    unittest.main()
