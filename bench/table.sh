#!/bin/sh
# table.sh ROWS [KIND]: writes a made table of ROWS rows to standard output.
#   plain:    id,name,amount,paid; row i is i, item and the last digit of i, i.25, true where i is odd and else false
#   quoted:   the same columns with commas, doubled quotes and line feeds inside quoted fields
#   japanese: plain, with names and truths in Japanese
#   longtext: id,text; 312 bytes of Japanese text a row
#   halfnull: plain, with every second name and amount empty
#   ints, decimals, floats (16 hexadecimal digits), bytes (8 bytes), truths: eight columns a to h of that kind
#   octets (0 to 255), signed8, words (0 to 65535), signed16, halves (4 hexadecimal digits), singles (8), blocks (16 bytes),
#   fractions (10 digits behind the point): the same
#   one: the column a of whole numbers; wide: 500 columns c1 to c500 of them, and columns-N N columns
#   letters: id,text; 2,000 letters a row
#   nulls-KIND: KIND with one in ten fields empty
rows=${1:?rows}
kind=${2:-plain}
exec awk -v n="$rows" -v kind="$kind" '
function eight(i, k, kind) {
  if (kind == "ints") return (i * 7919 * k) % 1000003
  if (kind == "decimals") return sprintf("%d.%02d", (i * 101 * k) % 1000003, (i * k) % 100)
  if (kind == "truths") return i * k % 3 ? "false" : "true"
  if (kind == "octets") return (i * 79 * k) % 256
  if (kind == "signed8") return (i * 79 * k) % 256 - 128
  if (kind == "words") return (i * 7919 * k) % 65536
  if (kind == "signed16") return (i * 7919 * k) % 65536 - 32768
  if (kind == "halves") return sprintf("%04x", (i * 7919 * k) % 65536)
  if (kind == "singles") return sprintf("%08x", (i * 2654435 * k) % 4294967291)
  if (kind == "fractions") return sprintf("%d.%010d", (i * 101 * k) % 1000003, (i * 2654435 * k) % 4294967291)
  if (kind == "blocks") return sprintf("%08x%08x%08x%08x", (i * 2654435 * k) % 4294967291, (i * 40503 * k) % 4294967291, i, k)
  return sprintf("%08x%08x", (i * 2654435 * k) % 4294967291, (i * 40503 * k) % 4294967291)
}
# A field of a column, or in the tables of nulls one in ten times none.
function field(i, k, text) { return nulls && (7 * i + 3 * k) % 10 == 3 ? "" : text }
BEGIN {
  nulls = sub(/^nulls-/, "", kind)
  if (kind ~ /^(ints|decimals|floats|bytes|truths|octets|signed8|words|signed16|halves|singles|blocks|fractions)$/) {
    print "a,b,c,d,e,f,g,h"
    for (i = 1; i <= n; i++) {
      line = field(i, 1, eight(i, 1, kind))
      for (k = 2; k <= 8; k++) line = line "," field(i, k, eight(i, k, kind))
      print line
    }
    exit
  }
  if (kind == "one" || kind == "wide" || sub(/^columns-/, "", kind)) {
    columns = kind == "one" ? 1 : kind == "wide" ? 500 : kind + 0
    line = columns == 1 ? "a" : "c1"
    for (k = 2; k <= columns; k++) line = line ",c" k
    print line
    for (i = 1; i <= n; i++) {
      line = eight(i, 1, "ints")
      for (k = 2; k <= columns; k++) line = line "," eight(i, k, "ints")
      print line
    }
    exit
  }
  if (kind == "letters") {
    print "id,text"
    for (k = 1; k <= 200; k++) text = text "abcdefghij"
    for (i = 1; i <= n; i++) print i "," text
    exit
  }
  if (kind == "longtext") {
    print "id,text"
    for (k = 1; k <= 8; k++) text = text "日本語の文章はここにある。"
    for (i = 1; i <= n; i++) printf "%d,%s\n", i, text
    exit
  }
  print "id,name,amount,paid"
  for (i = 1; i <= n; i++) {
    paid = i % 2 ? "true" : "false"
    if (kind == "plain") { print field(i, 1, i) "," field(i, 2, "item" i % 10) "," field(i, 3, i ".25") "," field(i, 4, paid); continue }
    if (kind == "japanese") { printf "%d,項目%d,%d.25,%s\n", i, i % 10, i, (i % 2 ? "はい" : "いいえ"); continue }
    if (kind == "halfnull") { printf "%d,%s,%s,%s\n", i, (i % 2 ? "item" i % 10 : ""), (i % 2 ? "" : i ".25"), paid; continue }
    if (kind != "quoted") exit 2
    name = i % 7 == 0 ? "\"two\nlines\"" : sprintf("\"item, \"\"%d\"\"\"", i % 10)
    printf "%d,%s,\"%d.25\",%s\n", i, name, i, paid
  }
}'
