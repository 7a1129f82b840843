#!/usr/bin/env bash
# Checks GDAL's own Arrow streams, their layouts and lifetimes: of all its field types, of layers that its drivers wrote and read,
# and of three inputs that don't keep to what they declare. Prints the versions, each case with its status, and the lines of what
# isn't lawful. It installs Debian's python3-gdal where that is missing, and is no part of the gate.
#
#     tools/check_gdal.sh PROGRAM      PROGRAM: the built arrowpipe
program=$(realpath "${1:?the built arrowpipe}") || exit 2
cd "$(dirname "$0")" || exit 2
export PYTHONDONTWRITEBYTECODE=1
python=/usr/bin/python3
if ! $python -c 'from osgeo import gdal' 2> /dev/null; then
    apt-get update > /dev/null && apt-get install -y --no-install-recommends python3-gdal > /dev/null || exit 2
fi
$python -c 'import platform; from osgeo import gdal; print("GDAL", gdal.__version__, "Python", platform.python_version())' || exit 2
ran=0 other=0
for name in $($python -c 'import gdal_exports; print(*gdal_exports.CASES)'); do
    lines=$(timeout 900 $python arrow_tree.py "gdal_exports:$name" --check "$program" --most 67108864 --seconds 300 2>&1)
    status=$?
    chunks=$(grep -c '^chunk' <<< "$lines")
    echo "$name: status $status, $chunks chunks"
    [ $status = 0 ] || grep -Ev ': ok(,|$)' <<< "$lines" | tail -6 | sed 's/^/    /'
    ran=$((ran + 1)) other=$((other + (status != 0)))
done
echo "$ran cases, $other of them not lawful as a whole"
[ $ran -gt 0 ]
