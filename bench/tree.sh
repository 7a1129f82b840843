#!/bin/sh
# tree.sh BYTES [KIND]: writes a made tree as a text of about this many bytes to standard output, which is lawful.
#   text:  a struct of one column of 6 bytes of text a row
#   nodes: a struct of this many columns of whole numbers, each of one row
#   pairs: a column without rows whose metadata has this many empty pairs, of 24 bytes of text each
#   lists: lists of three indices of a byte each into a dictionary of 200 texts of 7 bytes
#   union: a dense union of whole numbers, texts of 6 bytes and wide whole numbers, in turn
#   numbers: a column of whole numbers, each another one than that before it
#   runs:  run ends of 100 items each over such numbers; decoded: a column of the same items
#   keys:  a struct of a column of whole numbers that all differ and one of wide ones; ten: the same with ten different ones
#   rows:  a struct of a column of whole numbers and one of lists of three of them; spread: the same rows with the lists spread out
bytes=${1:?bytes}
kind=${2:-text}
exec awk -v size="$bytes" -v kind="$kind" '
function le(n, k,   i, s) { s = ""; for (i = 0; i < k; i++) { s = s sprintf("%02x", n % 256); n = int(n / 256) } return s }
function token(b) { return b > 32 && b < 127 && b != 37 ? sprintf("%c", b) : sprintf("%%%02X", b) }
function escaped(n, k,   i, s) { s = ""; for (i = 0; i < k; i++) { s = s token(n % 256); n = int(n / 256) } return s }
# A column without nulls: this many numbers of k bytes, each this often, from the first on, a step apart, modulo a number.
function wholes(n, k, times, first, step, modulus,   i, j, v) {
  printf "A " n * times " 0 0 2 0 0\nB ~\nB ="
  for (i = 0; i < n; i++) { v = le((first + step * i) % modulus, k); for (j = 0; j < times; j++) printf "%s", v }
  print ""
}
BEGIN {
  all = 2 ^ 40
  print "tree 1"
  if (kind == "text") {
    n = int(size / 20)
    print "S =+s ~ 0 1 0 ~\nS =u =t 0 0 0 ~\nA " n " 0 0 1 1 0\nB ~\nA " n " 0 0 3 0 0\nB ~"
    printf "B ="
    for (i = 0; i <= n; i++) printf "%s", le(6 * i, 4)
    printf "\nB ="
    for (i = 0; i < n; i++) printf "6974656d30%02x", 48 + i % 10
    print ""
    exit
  }
  if (kind == "nodes") {
    n = int(size / 46)
    print "S =+s ~ 0 " n " 0 ~"
    for (i = 0; i < n; i++) print "S =i ~ 0 0 0 ~"
    print "A 1 0 0 1 " n " 0\nB ~"
    for (i = 0; i < n; i++) print "A 1 0 0 2 0 0\nB ~\nB =01000000"
    exit
  }
  if (kind == "lists") {
    n = int(size / 14)
    print "S =+l ~ 0 1 0 ~\nS =C =i 0 0 1 ~\nS =u ~ 0 0 0 ~\nA " n " 0 0 2 1 0\nB ~"
    printf "B ="
    for (i = 0; i <= n; i++) printf "%s", le(3 * i, 4)
    printf "\nA " 3 * n " 0 0 2 0 1\nB ~\nB ="
    for (i = 0; i < 3 * n; i++) printf "%02x", 7 * i % 200
    printf "\nA 200 0 0 3 0 0\nB ~\nB ="
    for (i = 0; i <= 200; i++) printf "%s", le(7 * i, 4)
    printf "\nB ="
    for (i = 0; i < 200; i++) printf "6974656d3%d3%d3%d", i / 100, i / 10 % 10, i % 10
    print ""
    exit
  }
  if (kind == "union") {
    n = int(size / 74)
    print "S =+ud:0,1,2 ~ 0 3 0 ~\nS =i =n 0 0 0 ~\nS =u =t 0 0 0 ~\nS =l =w 0 0 0 ~\nA " 3 * n " 0 0 2 3 0"
    printf "B ="
    for (i = 0; i < n; i++) printf "000102"
    printf "\nB ="
    for (i = 0; i < n; i++) { at = le(i, 4); printf "%s", at at at }
    printf "\nA " n " 0 0 2 0 0\nB ~\nB ="
    for (i = 0; i < n; i++) printf "%s", le(i, 4)
    printf "\nA " n " 0 0 3 0 0\nB ~\nB ="
    for (i = 0; i <= n; i++) printf "%s", le(6 * i, 4)
    printf "\nB ="
    for (i = 0; i < n; i++) printf "6974656d30%02x", 48 + i % 10
    printf "\nA " n " 0 0 2 0 0\nB ~\nB ="
    for (i = 0; i < n; i++) printf "%s", le(1000 * i, 8)
    print ""
    exit
  }
  if (kind == "numbers") {
    print "S =i ~ 0 0 0 ~"
    wholes(int(size / 8), 4, 1, 0, 7, 1000)
    exit
  }
  if (kind == "runs") {
    n = int(size / 16)
    print "S =+r ~ 0 2 0 ~\nS =i =run_ends 0 0 0 ~\nS =i =values 2 0 0 ~\nA " 100 * n " 0 0 0 2 0"
    wholes(n, 4, 1, 100, 100, all)
    wholes(n, 4, 1, 0, 7, 1000)
    exit
  }
  if (kind == "decoded") {
    print "S =i ~ 0 0 0 ~"
    wholes(int(size / 16), 4, 100, 0, 7, 1000)
    exit
  }
  if (kind == "keys" || kind == "ten") {
    n = int(size / 24)
    print "S =+s ~ 0 2 0 ~\nS =i =k 2 0 0 ~\nS =l =v 2 0 0 ~\nA " n " 0 0 1 2 0\nB ~"
    if (kind == "keys") wholes(n, 4, 1, 0, 1, all)
    else wholes(n, 4, 1, 0, 7, 10)
    wholes(n, 8, 1, 0, 1, all)
    exit
  }
  if (kind == "rows") {
    n = int(size / 40)
    print "S =+s ~ 0 2 0 ~\nS =i =k 2 0 0 ~\nS =+l =v 2 1 0 ~\nS =i =item 2 0 0 ~\nA " n " 0 0 1 2 0\nB ~"
    wholes(n, 4, 1, 0, 1, all)
    printf "A " n " 0 0 2 1 0\nB ~\nB ="
    for (i = 0; i <= n; i++) printf "%s", le(3 * i, 4)
    print ""
    wholes(3 * n, 4, 1, 0, 1, all)
    exit
  }
  if (kind == "spread") {
    n = int(size / 40)
    print "S =+s ~ 0 2 0 ~\nS =i =k 2 0 0 ~\nS =i =v 2 0 0 ~\nA " 3 * n " 0 0 1 2 0\nB ~"
    wholes(n, 4, 3, 0, 1, all)
    wholes(3 * n, 4, 1, 0, 1, all)
    exit
  }
  if (kind != "pairs") exit 2
  n = int(size / 24)
  printf "S =n ~ 0 0 0 =%s", escaped(n, 4)
  for (i = 0; i < n; i++) printf "%%00%%00%%00%%00%%00%%00%%00%%00"
  print "\nA 0 0 0 0 0 0"
}'
