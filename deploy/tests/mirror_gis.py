"""The parcels as a layer for GIS programs: GDAL's PostgreSQL driver and QGIS on a standby, as the login of an office."""
import os
import shutil
import subprocess
import sys

from harness import check, note
from mirror_cluster import Server, feed_once
from mirror_feed import state, wait_for
from stack import DEPLOY, TOP

SRID = 2056
PROJECT = os.path.join(DEPLOY, "mirror", "parcels.qgs")
# Debian's wrapper qgis_process passes an option that this version does not have.
QGIS = "/usr/bin/qgis_process.bin"
SCRIPT = """
from qgis.core import QgsApplication, QgsProject
app = QgsApplication([], False)
app.initQgis()
print(QgsProject.instance().read({project!r}))
for layer in QgsProject.instance().mapLayers().values():
    print(layer.name(), layer.isValid(), layer.featureCount(), layer.readOnly())
"""


def gdal(*words):
    return subprocess.run([str(it) for it in words], capture_output=True, text=True, timeout=120)


def run(folder, server):
    if shutil.which("ogr2ogr") is None:
        return note("gdal-bin is not installed: the layer is not tested")
    sys.path.insert(0, os.path.join(TOP, "bench"))
    import registers
    file = folder.register("gis")
    registers.of_entries(file, 2000)
    os.chmod(file, 0o644)
    server.install("gis", "--srid", str(SRID))
    loaded = feed_once(folder, server, "gis", file)
    check("the register is loaded", loaded.returncode == 0, loaded.stderr)
    with server.connect("postgres", "gis") as db, db.cursor() as cursor:
        cursor.execute("CREATE ROLE gis_office LOGIN IN ROLE land_reader; CREATE ROLE gis_owner LOGIN IN ROLE land_reader; "
                       "INSERT INTO access.login VALUES ('gis_office', 1), ('gis_owner', 27)")
    with Server(folder, "gis", copy_of=server) as standby:
        wait_for(lambda: state(standby, "gis") == state(server, "gis"))
        where = f"PG:host={standby.socket} port={standby.port} dbname=gis user="
        info = gdal("ogrinfo", "-ro", "-so", where + "gis_office tables=office.parcel", "office.parcel")
        check("the layer has all parcels", "Feature Count: 500" in info.stdout and "Polygon" in info.stdout,
              info.stdout[-800:] + info.stderr)
        check("in the register's coordinate system", f'"EPSG",{SRID}' in info.stdout, info.stdout[-1200:])
        info = gdal("ogrinfo", "-ro", "-so", "-spat", "2600000", "1200000", "2600001", "1200001", where + "gis_office tables=office.parcel",
                    "office.parcel")
        check("a rectangle without parcels", "Feature Count: 0" in info.stdout, info.stdout[-300:])
        package = os.path.join(folder.scratch, "parcels.gpkg")
        made = gdal("ogr2ogr", "-f", "GPKG", package, where + "gis_office tables=office.parcel", "office.parcel")
        area = gdal("ogrinfo", "-q", "-ro", package, "-dialect", "sqlite", "-sql",
                    'SELECT count(*) AS n, sum(ST_Area(geom)) AS area FROM "office.parcel"')
        check("ogr2ogr copies them, in metres", "n (Integer) = 500" in area.stdout and "area (Real) = 50000" in area.stdout,
              made.stderr + area.stdout + area.stderr)
        info = gdal("ogrinfo", "-ro", "-so", where + "gis_owner tables=office.parcel", "office.parcel")
        check("the view of the office is empty for another login", "Feature Count: 0" in info.stdout, info.stdout[-300:])
        refused = gdal("ogr2ogr", "-f", "PostgreSQL", where + "gis_office", package)
        check("GDAL cannot write", refused.returncode != 0, refused.stdout)
        test_qgis(folder, standby)


def test_qgis(folder, server):
    """The project file shows the parcels, and qgis_process reads the layer."""
    if not os.path.exists(QGIS):
        return note("qgis is not installed: the project file is not tested")
    services = os.path.join(folder.scratch, "services")
    with open(services, "w", encoding="utf-8") as it:
        it.write(f"[land-mirror]\nhost={server.socket}\nport={server.port}\ndbname=gis\nuser=gis_office\n")
    more = {"env": {**os.environ, "PGSERVICEFILE": services, "QT_QPA_PLATFORM": "offscreen", "HOME": folder.scratch},
            "capture_output": True, "text": True, "timeout": 120}
    ran = subprocess.run(["/usr/bin/python3", "-c", SCRIPT.format(project=PROJECT)], **more)
    check("the QGIS project has the layer", ran.stdout.split("\n")[:2] == ["True", "Parcels True 500 True"], ran.stdout + ran.stderr[-600:])
    package = os.path.join(folder.scratch, "saved.gpkg")
    source = "postgres://service='land-mirror' key='number' table=\"office\".\"parcel\" (geom)"
    ran = subprocess.run([QGIS, "run", "native:savefeatures", "--", "INPUT=" + source, "OUTPUT=" + package], **more)
    info = gdal("ogrinfo", "-ro", "-so", "-al", package)
    check("qgis_process saves the layer", "Feature Count: 500" in info.stdout and f'"EPSG",{SRID}' in info.stdout,
          ran.stdout[-300:] + ran.stderr[-300:] + info.stderr[-300:])
