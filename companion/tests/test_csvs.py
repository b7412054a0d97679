"""Checks of csv against the program's imports, and what `--fix` makes of a file."""

import random
from collections.abc import Iterator
from pathlib import Path

import pytest

from conftest import SEED
from fleet.client import Client
from fleet.csv_fix import Changes, NotFixed, fix_file
from fleet.csvs import Cause, check_file, columns_of, object_names
from fleet.schema import Schema, listing

FILES = 1_500
FILES_OF_ONE_DATABASE = 50
"""So many imports are tried on one database, in which there are more and more objects."""
SETUP = (
    "class car 6 point (fuel dyn,plate text,seats num)",
    "class post 3",
    "class name 4 (name text,rates num)",
    "insert car a",
    "insert car b",
    "remove b",
    "insert post p",
)
ODD_FIELDS = (
    "a", "b", "c", "d", "e", "f", "g", "h", "p", "tick", "value", "AB-12", "1234", "Zürich", "", "  a", "_x", "n" * 32,
    "n" * 33, "0", "1", "12.0", "0.5", "0.30000000000000004", "1e-05", "-1", "-0", "+1", "1000000000", "1000000000.001",
    "1000", "1000.001", "00000000001", "NaN", ".5", "5.", "1.2345", "0.001", "0.0001", '"x"', "A,B", "AB 12", "t" * 32,
    "t" * 33, "\t", "é", "a\nb", "'", " ", "-", "--1", "1 ", "\x00", "\x7f", "²", "1_0", "٣",
)
TITLES = ("x", "x.rate", "y", "y.rate", "fuel", "fuel.rate", "plate", "seats")
ODD_TITLES = (*TITLES, "name", "seats.rate", "vx", "z", "Name", "", "plate.rate", "rates", ".rate")
USUAL_FIELDS = {"name": ("a", "b", "c", "_x", "p1"), "plate": ("", "AB", "A,B"), "x.rate": ("1", "-0.5")}


class Files:
    """Makes csv files, most of which have a fault or none."""

    def __init__(self, chance: random.Random) -> None:
        self.chance = chance

    def text(self) -> bytes:
        """The bytes of a file."""
        titles = ["name", *self.chance.sample(TITLES, self.chance.randrange(6))]
        if self.chance.random() < 0.2:
            titles = [self.chance.choice(ODD_TITLES) for _ in range(self.chance.randrange(5))]
        rows = [",".join(titles), *self._rows(titles)]
        end = self.chance.choice(("\n", "\n", "\n", "\r\n", "\r"))
        text = end.join(rows) + end * self._is(0.8)
        text = "\ufeff" * self._is(0.05) + text + '"' * self._is(0.02)
        return self._with_odd_byte(b"" if self._is(0.02) else text.encode("utf-8"))

    def _is(self, odds: float) -> bool:
        return self.chance.random() < odds

    def _rows(self, titles: list[str]) -> Iterator[str]:
        for _ in range(self.chance.randrange(6)):
            fields = [self._field(title) for title in titles]
            fields = fields[: -1 if self._is(0.03) else None] + ["1"] * self._is(0.03)
            yield from [""] * self._is(0.05)
            yield ",".join(map(self._quoted, fields))

    def _field(self, title: str) -> str:
        return self.chance.choice(ODD_FIELDS if self._is(0.07) else USUAL_FIELDS.get(title, ("0", "1.5", "-3")))

    def _quoted(self, field: str) -> str:
        if self._is(0.1) or (any(each in field for each in ',"\n\r') and self._is(0.8)):
            return '"' + field.replace('"', '""') + '"'
        return '"' * self._is(0.02) + field + '"' * self._is(0.03)

    def _with_odd_byte(self, text: bytes) -> bytes:
        if not text or not self._is(0.03):
            return text
        at = self.chance.randrange(len(text))
        return text[:at] + bytes([self.chance.randrange(256)]) + text[at + 1 :]


def is_taken(causes: list[Cause]) -> bool:
    return all(cause.is_warning for cause in causes)


def databases(program: Path, folder: Path, count: int) -> Iterator[tuple[Client, Schema]]:
    """Databases with the classes and objects of the setup, and their names."""
    for _ in range(count):
        with Client(program, directory=folder, patience=60) as client:
            for line in SETUP:
                assert client.send(line).ok
            yield client, Schema.of_lines(SETUP)


def imported(client: Client, schema: Schema, class_name: str, file: str) -> bool:
    """Imports the file, and takes the names that it brings."""
    if not client.send(f'import {class_name} "{file}"').ok:
        return False
    rows = client.send(listing(class_name)).records
    schema.record_present(class_name, [row.objects[0] for row in rows])
    return True


def test_finds_a_fault_where_the_program_does(program: Path, tmp_path: Path) -> None:
    chance = random.Random(SEED)
    files, path = Files(chance), tmp_path / "f.csv"
    verdicts: list[bool] = []
    for client, schema in databases(program, tmp_path, FILES // FILES_OF_ONE_DATABASE):
        for _ in range(FILES_OF_ONE_DATABASE):
            path.write_bytes(files.text())
            class_name = chance.choice(("car", "car", "car", "post", "name"))
            causes = list(check_file(path, schema.classes[class_name], schema))
            verdicts.append(imported(client, schema, class_name, path.name))
            assert verdicts[-1] == is_taken(causes), (path.read_bytes(), class_name, causes)
    assert min(verdicts.count(True), verdicts.count(False)) > FILES // 10


def test_what_is_fixed_is_taken_or_has_a_fault_that_is_told(program: Path, tmp_path: Path) -> None:
    """A file that the program takes it takes fixed as well, and the check tells of each fixed file whether it does."""
    chance = random.Random(SEED)
    files, path, out, names = Files(chance), tmp_path / "f.csv", tmp_path / "g.csv", tmp_path / "g.names.csv"
    helped = 0
    for client, schema in databases(program, tmp_path, 6):
        for _ in range(FILES_OF_ONE_DATABASE):
            path.write_bytes(files.text())
            out.unlink(missing_ok=True)
            names.unlink(missing_ok=True)
            was_taken = is_taken(list(check_file(path, schema.classes["car"], schema)))
            try:
                fix_file(path, out, names, schema.classes["car"], schema)
            except NotFixed:
                assert not was_taken
                continue
            causes = list(check_file(out, schema.classes["car"], schema))
            taken = imported(client, schema, "car", out.name)
            assert taken == is_taken(causes), (path.read_bytes(), out.read_bytes(), causes)
            assert taken or not was_taken
            helped += taken and not was_taken
    assert helped > 10


CAR = Schema.of_lines(SETUP)


def causes_of(tmp_path: Path, text: str, class_name: str = "car", schema: Schema = CAR) -> list[tuple[int, int, str]]:
    path = tmp_path / "f.csv"
    path.write_text(text, "utf-8", newline="")
    return [(cause.row, cause.column, cause.message) for cause in check_file(path, schema.classes[class_name], schema)]


@pytest.mark.parametrize(
    ("text", "row", "column", "message"),
    [
        ("", 1, 0, "the file is empty"),
        (",name,x\n0,a,1\n", 1, 1, "one of row numbers"),
        ("x,name\n", 1, 1, "which stands in column 2"),
        ("Name,x\n", 1, 1, "this is Name"),
        ("name;x\na;1\n", 1, 1, "fields are separated by commas"),
        ("name,vx\na,1\n", 1, 2, "the slope of x is the column x.rate"),
        ("name,feul\na,1\n", 1, 2, "car has no attribute feul; fuel"),
        ("name,seats.rate\na,1\n", 1, 2, "seats isn't dynamic"),
        ("name,x,x\na,1,1\n", 1, 3, "given twice"),
        ("name,x\n\na,0.30000000000000004\n", 3, 2, "0.30000000000000004 has more than three decimals"),
        ("name,x\na,1e-05\n", 2, 2, "without an exponent"),
        ("name,x\na,NaN\n", 2, 2, "NaN is no number"),
        ("name,x\na,\n", 2, 2, "the number is missing"),
        ("name,x\na,+1\n", 2, 2, "has a + before it"),
        ("name,x\na,1000000000.001\n", 2, 2, "at most 1,000,000,000"),
        ("name,x\na,00000000001\n", 2, 2, "more than ten digits"),
        ("name,x.rate\na,1000.5\n", 2, 2, "at most 1,000 "),
        ("name,x\na,1,2\n", 2, 0, "the row has 3 fields, and the first row has 2"),
        ("name\nAB-12\n", 2, 1, "letters, digits and _ alone"),
        ("name\n1234\n", 2, 1, "begins with a letter"),
        ("name\nZürich\n", 2, 1, "Zürich is no name"),
        ("name\ntick\n", 2, 1, "reserved word"),
        ("name,plate\na,\"B \"\"1\"\"\"\n", 2, 2, "no quotes"),
        ("name,plate\na,é\n", 2, 2, "0xC3"),
        ("name,plate\n\"a\",\"b\nc\"\n", 2, 2, "0x0A"),
        ("name\na\nc\nd\ne\nf\ng\n", 7, 1, "g is one name more than the capacity of car, 6"),
    ],
)
def test_tells_row_column_and_cause(tmp_path: Path, text: str, row: int, column: int, message: str) -> None:
    found = causes_of(tmp_path, text)
    assert (row, column) == found[0][:2] and message in found[0][2], found


def test_tells_all_faults(tmp_path: Path) -> None:
    text = "name,x,plate\na,1e3,ok\n1,NaN,\"\"\n\"q\nr\",0,x\na,0,é\n"
    assert [cause[:2] for cause in causes_of(tmp_path, text)] == [(2, 2), (3, 1), (3, 2), (4, 1), (6, 3)]


def test_a_name_that_does_not_stand_first_is_one_fault(tmp_path: Path) -> None:
    assert [cause[:2] for cause in causes_of(tmp_path, "x,name,name\n")] == [(1, 1), (1, 3)]
    assert [cause[:2] for cause in causes_of(tmp_path, "index,name,x\na,a,1\n")] == [(1, 1)]
    assert [cause[:2] for cause in causes_of(tmp_path, "name,name\na,b\n")] == [(1, 2)]


def test_objects_of_another_class_are_updated_where_they_can_be(client: Client, tmp_path: Path) -> None:
    lines = ["class car 5 point", "class bike 5 point (gears num)", "class shed 2"]
    lines += ["insert bike b", "insert bike c", "remove c"]
    for line in lines:
        assert client.send(line).ok
    schema = Schema.of_lines(lines)
    path = tmp_path / "f.csv"
    for text, class_name, taken in (
        ("name,x\nb,1\n", "car", True),
        ("name\nb\n", "shed", True),
        ("name,x\nc,1\n", "car", False),
        ("name,gears\nb,1\n", "car", False),
    ):
        path.write_text(text)
        causes = list(check_file(path, schema.classes[class_name], schema))
        assert causes and is_taken(causes) == taken == client.send(f'import {class_name} "f.csv"').ok, text


def test_has_the_columns_that_an_export_writes(client: Client, tmp_path: Path) -> None:
    for line in SETUP:
        client.send(line)
    client.send('export car "out.csv"')
    header, row = (tmp_path / "out.csv").read_text().splitlines()
    assert header.split(",") == ["name", *columns_of(CAR.classes["car"])] == ["name", *CAR.classes["car"].columns]
    assert list(object_names(tmp_path / "out.csv")) == ["a"]


# ---- What is fixed


def fixed(tmp_path: Path, text: str, class_name: str = "car") -> tuple[str, Changes]:
    (tmp_path / "f.csv").write_text(text, "utf-8", newline="")
    changes = fix_file(tmp_path / "f.csv", tmp_path / "g.csv", tmp_path / "names.csv", CAR.classes[class_name], CAR)
    return (tmp_path / "g.csv").read_text("ascii"), changes


def test_rounds_fills_and_renames(tmp_path: Path) -> None:
    text = (
        ",Name,vx,x,Fuel,plate,lat\n"
        '0,AB-12,1e-05,0.30000000000000004,,"KA ""1"" é",52.5\n'
        "1,1234,+1,NaN,.5,x,52.5\n"
        "2,AB_12,1000.0004,12.0,5.,y,1\n"
        "3,AB-12,-0.0001,1.0005,-7," + "z" * 40 + ",1\n"
    )
    new, changes = fixed(tmp_path, text)
    assert new == (
        "name,x.rate,x,fuel,plate\nAB_12_2,0,0.3,0,KA '1' e\nv_1234,1,0,0.5,x\nAB_12,1000,12,5,y\n"
        "AB_12_2,0,1,-7," + "z" * 32 + "\n"
    )
    assert changes.names == {"AB-12": "AB_12_2", "1234": "v_1234"}
    assert (tmp_path / "names.csv").read_text() == "id,name\nAB-12,AB_12_2\n1234,v_1234\n"
    assert changes.counts == {
        "columns renamed": 3, "columns left out": 2, "columns put first": 1, "objects renamed": 3, "numbers rounded": 5,
        "missing numbers filled with 0": 2, "texts changed": 2, "numbers written anew": 4,
    }
    assert all(":" in line for line in changes.told())
    assert causes_of(tmp_path, new) == []


def test_leaves_what_cant_be_known(tmp_path: Path) -> None:
    new, _ = fixed(tmp_path, "name,x\na,abc\nc,inf\nd,2000000000\n,1\ne,1,2\n")
    assert new == "name,x\na,abc\nc,inf\nd,2000000000\n,1\ne,1,2\n"
    assert [cause[:2] for cause in causes_of(tmp_path, new)] == [(2, 2), (3, 2), (4, 2), (5, 1), (6, 0)]


def test_makes_names_that_are_free(tmp_path: Path) -> None:
    ids = ["tick", "n" * 40, "n" * 41, "p", "é", "---", "1", "Zürich", "p-"]
    new, changes = fixed(tmp_path, "id\n" + "".join(f"{each}\n" for each in ids))
    names = new.splitlines()[1:]
    assert names == ["v_tick", "n" * 32, "n" * 30 + "_2", "p", "e", "___", "v_1", "Zurich", "p_"]
    assert not (tmp_path / "nothing").exists() and "p" not in changes.names


def test_gives_the_same_ids_the_same_names_again(tmp_path: Path) -> None:
    first, _ = fixed(tmp_path, "name\nAB-12\n")
    (tmp_path / "g.csv").unlink()
    (tmp_path / "names.csv").unlink()
    (tmp_path / "f.csv").write_text("name\nAB-12\n")
    schema = Schema.of_lines([*SETUP, "insert car AB_12"])
    fix_file(tmp_path / "f.csv", tmp_path / "g.csv", tmp_path / "names.csv", schema.classes["car"], schema)
    assert (tmp_path / "g.csv").read_text() == first == "name\nAB_12\n"


def test_writes_over_no_file_and_leaves_none_behind(tmp_path: Path) -> None:
    (tmp_path / "f.csv").write_text("name,x\na,1.0001\n")
    for there in ("g.csv", "names.csv"):
        (tmp_path / there).write_text("mine")
        with pytest.raises(NotFixed, match="is there already"):
            fix_file(tmp_path / "f.csv", tmp_path / "g.csv", tmp_path / "names.csv", CAR.classes["car"], CAR)
        assert (tmp_path / there).read_text() == "mine"
        (tmp_path / there).unlink()
        assert sorted(each.name for each in tmp_path.iterdir()) == ["f.csv"]


def test_fixes_nothing_without_a_column_of_names(tmp_path: Path) -> None:
    with pytest.raises(NotFixed, match="names of the objects"):
        fixed(tmp_path, "x,y\n1,2\n")
    with pytest.raises(NotFixed, match="is empty"):
        fixed(tmp_path, "")
    assert sorted(each.name for each in tmp_path.iterdir()) == ["f.csv"]


def test_reads_a_file_of_another_encoding(tmp_path: Path) -> None:
    (tmp_path / "f.csv").write_bytes("name,plate\nZürich,é\n".encode("latin-1"))
    fix_file(tmp_path / "f.csv", tmp_path / "g.csv", tmp_path / "names.csv", CAR.classes["car"], CAR)
    assert (tmp_path / "g.csv").read_text() == "name,plate\nZurich,e\n"
