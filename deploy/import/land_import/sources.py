"""Tables of the source: CSV files of a folder, or layers of any format that ogr2ogr reads."""
import csv
import io
import os
import re
import shutil
import subprocess

from .errors import Stop

csv.field_size_limit(2**31 - 1)
SUFFIXES = (".csv", ".CSV")


class Source:
    """The tables of a folder of CSV files or of a data set of OGR (GeoPackage, Shapefile, GML, ..)."""

    def __init__(self, path, encoding="utf-8", delimiter=","):
        self.path, self.encoding, self.delimiter = path, encoding, delimiter
        if not os.path.exists(path):
            raise Stop(f"{path} does not exist; the source is a folder of CSV files or a file that ogr2ogr reads, such as a GeoPackage")
        self.is_folder = os.path.isdir(path) and any(name.endswith(SUFFIXES) for name in os.listdir(path))
        try:
            self.layers = None if self.is_folder else self.list_layers()
        except Stop as stop:
            raise Stop(f"{path} contains no .csv file; {stop}" if os.path.isdir(path) else str(stop)) from None

    def list_layers(self):
        if shutil.which("ogr2ogr") is None:
            raise Stop(f"{self.path} is not a folder of CSV files, and ogr2ogr is not installed to read it: apt-get install gdal-bin")
        output = self.ogr("ogrinfo", "-ro", "-q", self.path)
        found = {}
        for line in output.splitlines():
            layer = re.fullmatch(r"\d+: (.*?)(?: \([^()]*\))?", line.strip())
            if layer:
                found[layer[1]] = None
        if not found:
            raise Stop(f"ogrinfo finds no layer in {self.path}")
        return found

    def ogr(self, *words):
        ran = subprocess.run(words, capture_output=True, text=True)
        if ran.returncode:
            raise Stop(f"{words[0]} cannot read {self.path}: {ran.stderr.strip().splitlines()[-1] if ran.stderr.strip() else 'no message'}")
        return ran.stdout

    def file_of(self, table):
        for suffix in SUFFIXES:
            path = os.path.join(self.path, table + suffix)
            if os.path.exists(path):
                return path
        return None

    def names(self):
        """Returns the names of the tables."""
        if self.is_folder:
            return sorted(name[:-4] for name in os.listdir(self.path) if name.endswith(SUFFIXES))
        return sorted(self.layers)

    def files(self):
        """Returns the files of the source, sorted."""
        if not os.path.isdir(self.path):
            return [self.path]
        names = sorted(name for name in os.listdir(self.path) if not self.is_folder or name.endswith(SUFFIXES))
        return [path for path in (os.path.join(self.path, name) for name in names) if os.path.isfile(path)]

    def has(self, table):
        return table in self.names()

    def open(self, table):
        """Opens a table as CSV."""
        if not self.is_folder:
            self.check_coordinates(table)
            return io.StringIO(self.ogr("ogr2ogr", "-f", "CSV", "/vsistdout/", self.path, table, "-lco", "GEOMETRY=AS_WKT", "-lco",
                                        "STRING_QUOTING=IF_NEEDED"), newline="")
        try:
            return open(self.file_of(table), encoding=self.encoding if self.encoding != "utf-8" else "utf-8-sig", newline="")
        except OSError as error:
            raise Stop(f"cannot read {self.file_of(table)}: {error.strerror}") from None
        except LookupError:
            raise Stop(f'encoding = "{self.encoding}" in [source] is not an encoding that Python knows') from None

    def place_of_error(self, table):
        """Returns the offset of the first byte that is not valid in the encoding."""
        with open(self.file_of(table), "rb") as file:
            try:
                file.read().decode(self.encoding)
            except UnicodeDecodeError as error:
                return error.start
        return 0

    def check_coordinates(self, table):
        """Stops if a layer has geographic coordinates: an area in square degrees is not an area. Undefined ones are accepted: a GeoPackage
        that was made without a coordinate system has them."""
        output = self.ogr("ogrinfo", "-ro", "-so", self.path, table)
        geometry = re.search(r"^Geometry: (.*)$", output, re.M)
        if geometry and geometry[1] != "None" and re.search(r'^(GEOGCRS|GEOGCS|GEODCRS)\["(?!Undefined)', output, re.M):
            raise Stop(f"layer {table} of {self.path} has geographic coordinates (degrees); project it first, for example: "
                       f"ogr2ogr -t_srs EPSG:25832 projected.gpkg {self.path}")

    def rows(self, table):
        """Yields the line number and the fields of each row of a table, a dict by column; None as fields if the row has another length."""
        with self.open(table) as file:
            reader = csv.reader(file, delimiter=self.delimiter if self.is_folder else ",")
            try:
                header = next(reader, None)
                if header is None:
                    return
                if len(set(header)) < len(header):
                    raise Stop(f"table {table} has two columns with the same name: {', '.join(header)}")
                yield 0, dict.fromkeys(header)
                for fields in reader:
                    if fields:
                        yield reader.line_num, dict(zip(header, fields)) if len(fields) == len(header) else None
            except UnicodeDecodeError:
                raise Stop(f"{self.file_of(table)} is not valid {self.encoding} at byte {self.place_of_error(table)}: set encoding in "
                           '[source], for example encoding = "latin-1"') from None
            except csv.Error as error:
                raise Stop(f"table {table}, line {reader.line_num}: {error}") from None
