"""GDAL's own Arrow streams, each by the name of a case: `arrow_tree.py gdal_exports:NAME`. For check_gdal.sh.

The streams are filled in by OGR_L_GetArrowStream of the library that osgeo has loaded, and handed over in capsules. A layer stays
open until its stream was released, as GDAL asks for: up to the next stream that is asked for behind its capsule's end."""
import atexit
import ctypes
import itertools
import shutil
import tempfile
from typing import Any, Callable, Dict, List

from osgeo import gdal, ogr, osr

ogr.UseExceptions()
gdal.PushErrorHandler("CPLQuietErrorHandler")
FOLDER = tempfile.mkdtemp(prefix="gdal-exports-")
FIELDS = [  # name, type, subtype, two values
    ("whole", ogr.OFTInteger, ogr.OFSTNone, [-5, 2147483647]), ("truth", ogr.OFTInteger, ogr.OFSTBoolean, [1, 0]),
    ("small", ogr.OFTInteger, ogr.OFSTInt16, [-32768, 7]), ("big", ogr.OFTInteger64, ogr.OFSTNone, [1 << 40, -1]),
    ("real", ogr.OFTReal, ogr.OFSTNone, [0.5, -1e300]), ("single", ogr.OFTReal, ogr.OFSTFloat32, [0.5, -2.0]),
    ("text", ogr.OFTString, ogr.OFSTNone, ["h\u00e9llo", ""]), ("bytes", ogr.OFTBinary, ogr.OFSTNone, [b"\0\xff", b"x"]),
    ("day", ogr.OFTDate, ogr.OFSTNone, ["2024/02/29", "1969/12/31"]), ("time", ogr.OFTTime, ogr.OFSTNone, ["12:34:56", "00:00:00"]),
    ("moment", ogr.OFTDateTime, ogr.OFSTNone, ["2024/02/29 12:34:56.789", "1960/01/01 00:00:00"]),
    ("wholes", ogr.OFTIntegerList, ogr.OFSTNone, [[1, 2, 3], []]), ("truths", ogr.OFTIntegerList, ogr.OFSTBoolean, [[1, 0], [1]]),
    ("bigs", ogr.OFTInteger64List, ogr.OFSTNone, [[1 << 40], [1, 2]]), ("reals", ogr.OFTRealList, ogr.OFSTNone, [[0.5], [1.0, 2.0]]),
    ("texts", ogr.OFTStringList, ogr.OFSTNone, [["a", "\u00e9"], [""]])]
LISTS = {ogr.OFTIntegerList: "SetFieldIntegerList", ogr.OFTInteger64List: "SetFieldInteger64List",
         ogr.OFTRealList: "SetFieldDoubleList", ogr.OFTStringList: "SetFieldStringList"}
DRIVERS = {"geojson": "GeoJSON", "csv": "CSV", "shp": "ESRI Shapefile", "gpkg": "GPKG", "fgb": "FlatGeobuf", "gml": "GML",
           "sqlite": "SQLite", "kml": "KML", "geojsonl": "GeoJSONSeq"}
CASES: Dict[str, Callable[[], Any]] = {}
kept: List[Any] = []
held: Dict[int, Any] = {}
numbers = itertools.count()
atexit.register(shutil.rmtree, FOLDER, ignore_errors=True)


def file(name: str) -> str:
    return f"{FOLDER}/{next(numbers)}-{name}"


def case(function: Callable[[], Any]) -> None:
    CASES[function.__name__] = function


def layer_of(rows: int, fields: Any = FIELDS) -> Any:
    """A layer in memory. Of three rows the last has nulls alone."""
    source = ogr.GetDriverByName("Memory").CreateDataSource("")
    place = osr.SpatialReference()
    place.ImportFromEPSG(4326)
    layer = source.CreateLayer("rows", place, ogr.wkbPoint)
    for name, kind, subtype, _ in fields:
        field = ogr.FieldDefn(name, kind)
        field.SetSubType(subtype)
        layer.CreateField(field)
    for row in range(rows):
        feature = ogr.Feature(layer.GetLayerDefn())
        for i, (_, kind, _, values) in enumerate(fields):
            if row % 3 == 2:
                feature.SetFieldNull(i)
            elif kind == ogr.OFTBinary:
                feature.SetFieldBinaryFromHexString(i, values[row % 3].hex())
            elif kind in LISTS:
                getattr(feature, LISTS[kind])(i, values[row % 3])
            else:
                feature.SetField(i, values[row % 3])
        if row % 3 != 2:
            feature.SetGeometry(ogr.CreateGeometryFromWkt(f"POINT ({row % 90} 2)"))
        layer.CreateFeature(feature)
    kept.append(source)
    return layer


for each in FIELDS:
    CASES[f"type_{each[0]}"] = lambda each=each: layer_of(5, [each])


@case
def all_types() -> Any:
    return layer_of(5)


@case
def no_rows() -> Any:
    return layer_of(0)


@case
def two_batches() -> Any:
    return layer_of(70000, FIELDS[:3] + FIELDS[6:7])


@case
def filtered_rows() -> Any:
    layer = layer_of(9)
    layer.SetAttributeFilter("whole = -5")
    return layer


@case
def filtered_place() -> Any:
    layer = layer_of(9)
    layer.SetSpatialFilterRect(2.5, 0, 4.5, 3)
    return layer


@case
def ignored_fields() -> Any:
    layer = layer_of(5)
    layer.SetIgnoredFields(["text", "OGR_GEOMETRY"])
    return layer


def stored(suffix: str) -> Any:
    """The layer as a driver wrote it, read again."""
    path = file(f"rows.{suffix}")
    fields = [it for it in FIELDS if it[0] in ("whole", "real", "text", "day")]
    source = ogr.GetDriverByName(DRIVERS[suffix]).CreateDataSource(path)
    source.CopyLayer(layer_of(6, fields), "rows")
    del source
    kept.append(ogr.Open(path))
    return kept[-1].GetLayer(0)


for each in DRIVERS:
    CASES[f"stored_{each}"] = lambda each=each: stored(each)


def coded(value: int) -> Any:
    path = file("coded.gpkg")
    source = gdal.GetDriverByName("GPKG").Create(path, 0, 0, 0, gdal.GDT_Unknown)
    source.AddFieldDomain(ogr.CreateCodedFieldDomain("colours", "", ogr.OFTInteger, ogr.OFSTNone, {0: "red", 1: "blue"}))
    layer = source.CreateLayer("rows", None, ogr.wkbNone)
    field = ogr.FieldDefn("colour", ogr.OFTInteger)
    field.SetDomainName("colours")
    layer.CreateField(field)
    feature = ogr.Feature(layer.GetLayerDefn())
    feature.SetField(0, value)
    layer.CreateFeature(feature)
    del layer, source
    kept.append(ogr.Open(path))
    return kept[-1].GetLayer(0)


@case
def coded_domain() -> Any:
    return coded(1)


@case
def coded_domain_other_value() -> Any:
    return coded(7)


def opened(name: str, content: bytes) -> Any:
    path = file(name)
    with open(path, "wb") as out:
        out.write(content)
    kept.append(ogr.Open(path))
    return kept[-1].GetLayer(0)


@case
def latin_1_csv() -> Any:
    return opened("latin.csv", "id,name\n1,h\u00e9llo\n".encode("latin-1"))


@case
def latin_1_geojson() -> Any:
    return opened("latin.geojson", '{"type":"Feature","geometry":null,"properties":{"name":"h\u00e9llo"}}'.encode("latin-1"))


@case
def flatgeobuf_filter_of_nothing() -> Any:
    layer = stored("fgb")
    layer.SetSpatialFilterRect(-50, -50, -49, -49)
    return layer


NEW = ctypes.PYFUNCTYPE(ctypes.py_object, ctypes.c_void_p, ctypes.c_char_p, ctypes.c_void_p)(("PyCapsule_New", ctypes.pythonapi))
PLACE = ctypes.PYFUNCTYPE(ctypes.c_void_p, ctypes.c_void_p, ctypes.c_char_p)(("PyCapsule_GetPointer", ctypes.pythonapi))
NAME = b"arrow_array_stream"


@ctypes.PYFUNCTYPE(None, ctypes.c_void_p)
def destroy(capsule: int) -> None:
    stream, *sources = held.pop(PLACE(capsule, NAME))
    if stream[3]:
        ctypes.CFUNCTYPE(None, ctypes.c_void_p)(stream[3])(ctypes.addressof(stream))
    kept.extend(sources)


class Stream:
    """The stream of a layer, which is made anew each time."""

    def __init__(self, layer: Callable[[], Any]) -> None:
        self.layer = layer

    def __arrow_c_stream__(self, requested_schema: Any = None) -> Any:
        kept.clear()
        layer, stream = self.layer(), (ctypes.c_int64 * 5)()
        library = ctypes.CDLL(next(line.split()[-1] for line in open("/proc/self/maps") if "libgdal.so" in line))
        library.OGR_L_GetArrowStream.argtypes = [ctypes.c_void_p] * 3
        if not library.OGR_L_GetArrowStream(int(layer.this), stream, None):
            raise RuntimeError("GDAL gives no stream")
        held[ctypes.addressof(stream)] = [stream, layer, *kept]
        kept.clear()
        return NEW(ctypes.addressof(stream), NAME, ctypes.cast(destroy, ctypes.c_void_p))


for name, layer in list(CASES.items()):
    globals()[name] = Stream(layer)
