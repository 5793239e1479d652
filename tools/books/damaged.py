#!/usr/bin/env python3
"""Writes crates/damaged/stdin and crates/damaged/stdout: books, most of them damaged, and what load says of each.

    damaged.py          writes both files
    damaged.py list     prints the cases by number, with their names and what is said of them

stdin has a frame for each book: a header line `LENGTH TIMES`, then LENGTH bytes. The book is these bytes, TIMES
times over. A frame states numbers up to 131,072; a larger one ends the reading. stdout has one line for each book:
`accepted`, or the text of the fault.

A case here has a name, what is said of it, and its bytes. What is said was written down by hand; the script stops
if the oracle says otherwise.
"""
import os
import sys

sys.path.insert(0, os.path.dirname(os.path.abspath(__file__)))
sys.dont_write_bytecode = True
import oracle

OK = "accepted"

# Three decisions of 3, 2 and 3 values: a book's lines behind them count from 4.
THREE = b"D 3 on\nD 2 off\nD 3 off\n"
# Five decisions, of 3 values each: lines behind them count from 6.
FIVE = b"D 3 on\n" * 5
SIZE_16 = b"D 16 off\n" * 64

# rules as long as they come
LONG_F = b"F 60=16 61=16 62=16 63=16\n"
LONG_A = b"A 63 60=16 61=16 62=16 63=16\n"
LONG_P = b"P 255 1000000000 60=16 61=16 62=16 63=16\n"
LARGEST = SIZE_16 + 256 * LONG_F + 256 * LONG_A + 256 * LONG_P

# (name, what is said, the bytes, how often they stand)
CASES = [
    # --- accepted ---
    ("the empty text", OK, b"", 1),
    ("the empty text, as often as a frame can state", OK, b"", 131072),
    ("one decision", OK, b"D 1 on\n", 1),
    ("the worked book", OK, THREE + b"F 1=1 2=3\nA 1 0=1\nA 2 0=1\nA 2 0=2\nP 0 40 0=1\nP 0 70 0=2\nP 1 60 0=3\n"
     b"P 0 30 1=1\nP 0 45 1=2\nP 0 25 2=1\nP 0 15 2=2\nP 0 5 2=3\n", 1),
    ("rules of the three kinds in a mix", OK, THREE + b"P 255 0 0=3\nF 0=1\nA 0 2=3\nF 1=2\nP 0 1 1=1\nA 2 2=1\n", 1),
    ("a rule twice", OK, THREE + b"F 0=1\nF 0=1\n", 1),
    ("the largest book that there is", OK, LARGEST, 1),

    # --- 16: the text is too large ---
    ("65,536 bytes, one line of no kind", "refused 12 text 1 1", b"X", 65536),
    ("65,537 bytes, one line of no kind", "refused 16 text 1 1", b"X", 65537),
    ("65,536 empty lines", "refused 12 text 1 1", b"\n", 65536),
    ("65,537 empty lines: the size comes before the first line", "refused 16 text 1 1", b"\n", 65537),
    ("65,536 bytes of fields, the last one empty and no end", "refused 14 text 1 65537", b"F ", 32768),
    ("65,532 bytes of rules with no decision", "refused 4 planner 1 1", b"F 0=1\n", 10922),
    ("65,534 bytes of decisions", "refused 1 planner 65 1", b"D 1 on\n", 9362),

    # --- 12: no kind, or no space ---
    ("a lone byte 10", "refused 12 text 1 1", b"\n", 1),
    ("an empty line between decisions", "refused 12 text 2 1", b"D 3 on\n\nD 3 on\n", 1),
    ("an empty line at the end", "refused 12 text 2 1", b"D 3 on\n\n", 1),
    ("D alone", "refused 12 text 1 1", b"D\n", 1),
    ("F alone", "refused 12 text 4 1", THREE + b"F\n", 1),
    ("A alone", "refused 12 text 4 1", THREE + b"A\n", 1),
    ("P alone", "refused 12 text 4 1", THREE + b"P\n", 1),
    ("D alone, no end: 12 comes before 14", "refused 12 text 1 1", b"D", 1),
    ("one byte of no kind, no end", "refused 12 text 4 1", THREE + b"x", 1),
    ("a lone space", "refused 12 text 1 1", b" \n", 1),
    ("a space first", "refused 12 text 1 1", b" D 3 on\n", 1),
    ("lower-case d", "refused 12 text 1 1", b"d 3 on\n", 1),
    ("lower-case f", "refused 12 text 4 1", THREE + b"f 0=1\n", 1),
    ("lower-case a", "refused 12 text 4 1", THREE + b"a 1 0=1\n", 1),
    ("lower-case p", "refused 12 text 4 1", THREE + b"p 0 5 0=1\n", 1),
    ("E, behind D", "refused 12 text 1 1", b"E 3 on\n", 1),
    ("C, before D", "refused 12 text 1 1", b"C 3 on\n", 1),
    ("G, behind F", "refused 12 text 4 1", THREE + b"G 0=1\n", 1),
    ("B, behind A", "refused 12 text 4 1", THREE + b"B 1 0=1\n", 1),
    ("Q, behind P", "refused 12 text 4 1", THREE + b"Q 0 5 0=1\n", 1),
    ("a comment", "refused 12 text 2 1", b"D 3 on\n# the sort key\nD 3 on\n", 1),
    ("a tab in place of the space", "refused 12 text 1 1", b"D\t3 on\n", 1),
    ("two letters", "refused 12 text 4 1", THREE + b"FF 0=1\n", 1),
    ("no space behind the letter", "refused 12 text 4 1", THREE + b"F0=1\n", 1),
    ("a carriage return alone", "refused 12 text 1 1", b"\r\n", 1),
    ("a kind and a carriage return", "refused 12 text 1 1", b"D\r\n", 1),
    ("carriage returns as line ends: one line, a field too many", "refused 14 text 1 10", b"D 3 on\rD 2 off\r", 1),
    ("a byte-order mark", "refused 12 text 1 1", b"\xef\xbb\xbfD 3 on\n", 1),
    ("byte 0 as a kind", "refused 12 text 1 1", b"\x00 3 on\n", 1),
    ("byte 0 in place of the space", "refused 12 text 1 1", b"D\x003 on\n", 1),
    ("byte 160 in place of the space", "refused 12 text 1 1", b"D\xa03 on\n", 1),
    ("byte 196 as a kind (D and 128)", "refused 12 text 1 1", b"\xc4 3 on\n", 1),
    ("a lone byte 0", "refused 12 text 1 1", b"\x00", 1),

    # --- 15: a decision after a rule ---
    ("a decision after a forbid rule", "refused 15 text 5 1", THREE + b"F 0=1\nD 3 on\n", 1),
    ("a decision after an activate rule", "refused 15 text 5 1", THREE + b"A 1 0=1\nD 3 on\n", 1),
    ("a decision after a price rule", "refused 15 text 5 1", THREE + b"P 0 5 0=1\nD 3 on\n", 1),
    ("15 before 14", "refused 15 text 5 1", THREE + b"F 0=1\nD \n", 1),
    ("15 before 14, no end", "refused 15 text 5 1", THREE + b"F 0=1\nD 3 on", 1),
    ("15 before 13", "refused 15 text 5 1", THREE + b"F 0=1\nD x on\n", 1),
    ("15 before 2", "refused 15 text 5 1", THREE + b"F 0=1\nD 0 on\n", 1),
    ("15 before 1", "refused 15 text 66 1", SIZE_16 + b"F 0=1\nD 3 on\n", 1),
    ("12 before 15: D alone after a rule", "refused 12 text 5 1", THREE + b"F 0=1\nD\n", 1),
    ("12 before 15: lower case after a rule", "refused 12 text 5 1", THREE + b"F 0=1\nd 3 on\n", 1),
    ("a refused rule is reported, not the decision after it", "refused 5 planner 4 1", THREE + b"F 0=4\nD 3 on\n", 1),

    # --- 14: fields missing, empty or too many; the end missing ---
    ("D and a space", "refused 14 text 1 3", b"D \n", 1),
    ("F and a space", "refused 14 text 4 3", THREE + b"F \n", 1),
    ("A and a space", "refused 14 text 4 3", THREE + b"A \n", 1),
    ("P and a space", "refused 14 text 4 3", THREE + b"P \n", 1),
    ("D without its mark", "refused 14 text 1 4", b"D 3\n", 1),
    ("D without its mark, two digits", "refused 14 text 1 5", b"D 16\n", 1),
    ("D with an empty mark", "refused 14 text 1 5", b"D 3 \n", 1),
    ("D with an empty size", "refused 14 text 1 3", b"D  on\n", 1),
    ("D and two spaces", "refused 14 text 1 3", b"D  \n", 1),
    ("D with a field too many", "refused 14 text 1 8", b"D 3 on x\n", 1),
    ("D with two fields too many", "refused 14 text 1 9", b"D 3 off 1 2\n", 1),
    ("D with a space at its end", "refused 14 text 1 8", b"D 3 on \n", 1),
    ("D with two spaces inside", "refused 14 text 1 5", b"D 3  on\n", 1),
    ("D with a tab between size and mark: one field", "refused 14 text 1 7", b"D 3\ton\n", 1),
    ("F with two spaces between pairs", "refused 14 text 4 7", THREE + b"F 0=1  1=1\n", 1),
    ("F with two spaces first", "refused 14 text 4 3", THREE + b"F  0=1\n", 1),
    ("F with a space at its end", "refused 14 text 4 7", THREE + b"F 0=1 \n", 1),
    ("A with its target and a space", "refused 14 text 4 5", THREE + b"A 1 \n", 1),
    ("A with an empty target", "refused 14 text 4 3", THREE + b"A  0=1\n", 1),
    ("P without its cents", "refused 14 text 4 4", THREE + b"P 0\n", 1),
    ("P with empty cents", "refused 14 text 4 5", THREE + b"P 0 \n", 1),
    ("P with empty cents before a pair", "refused 14 text 4 5", THREE + b"P 0  0=1\n", 1),
    ("P with an empty tier", "refused 14 text 4 3", THREE + b"P  5 0=1\n", 1),
    ("P with cents and a space", "refused 14 text 4 7", THREE + b"P 0 5 \n", 1),
    ("two empty fields: the left one", "refused 14 text 4 7", THREE + b"F 0=1  1=1  2=1\n", 1),
    ("14 before 13 to the left of it", "refused 14 text 4 5", THREE + b"F x  0=1\n", 1),
    ("14 before 13: a size of no form, and a field too many", "refused 14 text 1 8", b"D x on y\n", 1),
    ("14 before 3: a sixth pair that is empty", "refused 14 text 6 23", FIVE + b"F 0=1 1=1 2=1 3=1 4=1 \n", 1),
    ("14 before 6", "refused 14 text 4 11", THREE + b"F 1=1 0=1 \n", 1),
    ("14 before 7", "refused 14 text 4 16", THREE + b"P 0 1000000001  0=1\n", 1),
    ("14 before 4", "refused 14 text 4 7", THREE + b"F 9=1 \n", 1),
    ("14 before 2", "refused 14 text 1 6", b"D 17 \n", 1),
    ("14 before 1", "refused 14 text 65 5", SIZE_16 + b"D 3 \n", 1),
    ("an empty field far to the right", "refused 14 text 6 403", FIVE + b"F" + 100 * b" 0=1" + b"  1=1\n", 1),

    # --- 14: no byte 10 at the end ---
    ("D without its end", "refused 14 text 1 7", b"D 3 on", 1),
    ("F without its end", "refused 14 text 4 6", THREE + b"F 0=1", 1),
    ("A without its end", "refused 14 text 4 8", THREE + b"A 1 0=1", 1),
    ("P without its end", "refused 14 text 4 10", THREE + b"P 0 5 0=1", 1),
    ("D without mark and end", "refused 14 text 1 4", b"D 3", 1),
    ("P without cents and end", "refused 14 text 4 4", THREE + b"P 0", 1),
    ("F, a space, no end", "refused 14 text 4 3", THREE + b"F ", 1),
    ("no end, and an empty field left of it", "refused 14 text 4 7", THREE + b"F 0=1  1=1", 1),
    ("no end, and a field too many left of it", "refused 14 text 1 8", b"D 3 on x", 1),
    ("no end, and a space last", "refused 14 text 4 7", THREE + b"F 0=1 ", 1),
    ("no end, and 13 left of it: 14 wins", "refused 14 text 4 6", THREE + b"F 0:1", 1),
    ("no end, and a size of no form: 14 wins", "refused 14 text 1 8", b"D 03 on", 1),
    ("no end, and no pairs: 14 before 3", "refused 14 text 4 4", THREE + b"A 1", 1),
    ("no end, and 12: 12 wins", "refused 12 text 4 1", THREE + b"X 0=1", 1),
    ("no end, and a 65th decision: 14 wins", "refused 14 text 65 7", SIZE_16 + b"D 3 on", 1),
    ("no end, but an earlier line is faulty", "refused 2 planner 1 1", b"D 0 on\nD 3 on", 1),

    # --- 13: numbers ---
    ("size 00", "refused 13 text 1 3", b"D 00 on\n", 1),
    ("size 01", "refused 13 text 1 3", b"D 01 on\n", 1),
    ("size 007", "refused 13 text 1 3", b"D 007 on\n", 1),
    ("size +1", "refused 13 text 1 3", b"D +1 on\n", 1),
    ("size -1", "refused 13 text 1 3", b"D -1 on\n", 1),
    ("size 1.0", "refused 13 text 1 3", b"D 1.0 on\n", 1),
    ("size 0x3", "refused 13 text 1 3", b"D 0x3 on\n", 1),
    ("size 256", "refused 13 text 1 3", b"D 256 on\n", 1),
    ("size 259: 3 if it wrapped", "refused 13 text 1 3", b"D 259 on\n", 1),
    ("size 4294967299: 3 if it wrapped", "refused 13 text 1 3", b"D 4294967299 on\n", 1),
    ("size 18446744073709551619: 3 if it wrapped", "refused 13 text 1 3", b"D 18446744073709551619 on\n", 1),
    ("a size of 30 digits", "refused 13 text 1 3", b"D 123456789012345678901234567890 on\n", 1),
    ("a size of 1,000 zeros", "refused 13 text 1 3", b"D " + 1000 * b"0" + b" on\n", 1),
    ("byte 47, before the digits", "refused 13 text 1 3", b"D / on\n", 1),
    ("byte 58, behind the digits", "refused 13 text 1 3", b"D : on\n", 1),
    ("byte 179 as a digit (3 and 128)", "refused 13 text 1 3", b"D \xb3 on\n", 1),
    ("byte 0 behind a size", "refused 13 text 1 3", b"D 3\x00 on\n", 1),
    ("target 256", "refused 13 text 4 3", THREE + b"A 256 0=1\n", 1),
    ("target 01", "refused 13 text 4 3", THREE + b"A 01 0=1\n", 1),
    ("a pair as target", "refused 13 text 4 3", THREE + b"A 0=1 1=1\n", 1),
    ("tier 255", OK, THREE + b"P 255 5 0=1\n", 1),
    ("tier 256", "refused 13 text 4 3", THREE + b"P 256 5 0=1\n", 1),
    ("tier 00", "refused 13 text 4 3", THREE + b"P 00 5 0=1\n", 1),
    ("cents 4294967296", "refused 13 text 4 5", THREE + b"P 0 4294967296 0=1\n", 1),
    ("cents of 30 digits", "refused 13 text 4 5", THREE + b"P 0 123456789012345678901234567890 0=1\n", 1),
    ("cents 05", "refused 13 text 4 5", THREE + b"P 0 05 0=1\n", 1),
    ("cents with a comma", "refused 13 text 4 5", THREE + b"P 0 1,000 0=1\n", 1),
    ("a pair as cents", "refused 13 text 4 5", THREE + b"P 0 0=1\n", 1),

    # --- 13: marks ---
    ("mark ON", "refused 13 text 1 5", b"D 3 ON\n", 1),
    ("mark of", "refused 13 text 1 5", b"D 3 of\n", 1),
    ("mark o", "refused 13 text 1 5", b"D 3 o\n", 1),
    ("mark onn", "refused 13 text 1 5", b"D 3 onn\n", 1),
    ("mark offf", "refused 13 text 1 5", b"D 3 offf\n", 1),
    ("mark 1", "refused 13 text 1 5", b"D 3 1\n", 1),
    ("a mark and a carriage return", "refused 13 text 1 5", b"D 3 on\r\n", 1),
    ("a mark and a tab", "refused 13 text 1 5", b"D 3 on\t\n", 1),
    ("a mark and byte 0", "refused 13 text 1 5", b"D 3 on\x00\n", 1),
    ("a mark with byte 239 (o and 128)", "refused 13 text 1 5", b"D 3 \xefn\n", 1),
    ("mark and size changed round: the left one", "refused 13 text 1 3", b"D on 3\n", 1),

    # --- 13: pairs ---
    ("a pair without its equals sign", "refused 13 text 4 3", THREE + b"F 01\n", 1),
    ("a decision alone as pair", "refused 13 text 4 3", THREE + b"F 0\n", 1),
    ("1==2", "refused 13 text 4 3", THREE + b"F 1==2\n", 1),
    ("=1", "refused 13 text 4 3", THREE + b"F =1\n", 1),
    ("1=", "refused 13 text 4 3", THREE + b"F 1=\n", 1),
    ("= alone", "refused 13 text 4 3", THREE + b"F =\n", 1),
    ("1=2=3", "refused 13 text 4 3", THREE + b"F 1=2=3\n", 1),
    ("a pair with byte 60", "refused 13 text 4 3", THREE + b"F 0<1\n", 1),
    ("a pair with byte 189 (= and 128)", "refused 13 text 4 3", THREE + b"F 0\xbd1\n", 1),
    ("decision 00 in a pair", "refused 13 text 4 3", THREE + b"F 00=1\n", 1),
    ("value 01 in a pair", "refused 13 text 4 3", THREE + b"F 0=01\n", 1),
    ("value +1 in a pair", "refused 13 text 4 3", THREE + b"F 0=+1\n", 1),
    ("value 256 in a pair", "refused 13 text 4 3", THREE + b"F 0=256\n", 1),
    ("value 257 in a pair: 1 if it wrapped", "refused 13 text 4 3", THREE + b"F 0=257\n", 1),
    ("decision 256 in a pair", "refused 13 text 4 3", THREE + b"F 256=1\n", 1),
    ("a pair of 30 digits", "refused 13 text 4 3", THREE + b"F 0=123456789012345678901234567890\n", 1),
    ("a tab between pairs", "refused 13 text 4 3", THREE + b"F 0=1\t1=1\n", 1),
    ("a carriage return behind a pair", "refused 13 text 4 7", THREE + b"F 0=1 1=1\r\n", 1),
    ("a carriage return as the only field", "refused 13 text 4 3", THREE + b"F \r\n", 1),
    ("the second pair of an activate rule", "refused 13 text 4 9", THREE + b"A 1 0=1 x\n", 1),
    ("the second pair of a price rule", "refused 13 text 4 14", THREE + b"P 12 345 0=1 1:2\n", 1),
    ("two malformed pairs: the left one", "refused 13 text 4 7", THREE + b"F 0=1 x y\n", 1),
    ("malformed tier, cents and pair: the tier", "refused 13 text 4 3", THREE + b"P x y z\n", 1),
    ("malformed cents and pair: the cents", "refused 13 text 4 6", THREE + b"P 10 y z\n", 1),
    ("malformed target and pair: the target", "refused 13 text 4 3", THREE + b"A x y\n", 1),
    ("13 before 3: a malformed target, no pairs", "refused 13 text 4 3", THREE + b"A x\n", 1),
    ("13 before 3: a sixth pair that is malformed", "refused 13 text 6 23", FIVE + b"F 0=1 1=1 2=1 3=1 4=1 0=\n", 1),
    ("13 before 6", "refused 13 text 4 11", THREE + b"F 1=1 0=1 x\n", 1),
    ("13 before 7", "refused 13 text 4 16", THREE + b"P 0 1000000001 x\n", 1),
    ("13 before 4", "refused 13 text 4 7", THREE + b"F 9=1 x\n", 1),
    ("13 before 2", "refused 13 text 1 6", b"D 17 x\n", 1),
    ("13 before 1", "refused 13 text 65 3", SIZE_16 + b"D x on\n", 1),

    # --- 3: no pairs, or more than four ---
    ("A with its target alone", "refused 3 rule 4 1", THREE + b"A 1\n", 1),
    ("P with its price alone", "refused 3 rule 4 1", THREE + b"P 0 5\n", 1),
    ("four pairs", OK, FIVE + b"F 0=1 1=1 2=1 3=1\nA 4 0=1 1=1 2=1 3=1\nP 0 5 0=1 1=1 2=1 3=1\n", 1),
    ("five pairs in F", "refused 3 rule 6 1", FIVE + b"F 0=1 1=1 2=1 3=1 4=1\n", 1),
    ("five pairs in A", "refused 3 rule 6 1", FIVE + b"A 4 0=1 1=1 2=1 3=1 4=1\n", 1),
    ("five pairs in P", "refused 3 rule 6 1", FIVE + b"P 0 5 0=1 1=1 2=1 3=1 4=1\n", 1),
    ("six pairs", "refused 3 rule 6 1", FIVE + b"F 0=1 1=1 2=1 3=1 4=1 5=1\n", 1),
    ("260 pairs: four if the count wrapped", "refused 3 rule 6 1", FIVE + b"F" + 260 * b" 0=1" + b"\n", 1),
    ("3 before 6", "refused 3 rule 6 1", FIVE + b"F 4=1 3=1 2=1 1=1 0=1\n", 1),
    ("3 before 7", "refused 3 rule 4 1", THREE + b"P 0 1000000001\n", 1),
    ("3 before 4: no pairs, target unknown", "refused 3 rule 4 1", THREE + b"A 9\n", 1),
    ("3 before 5", "refused 3 rule 6 1", FIVE + b"F 0=0 1=1 2=1 3=1 4=1\n", 1),

    # --- 6: pairs that do not ascend ---
    ("F descending", "refused 6 rule 4 1", THREE + b"F 1=1 0=1\n", 1),
    ("A descending", "refused 6 rule 4 1", THREE + b"A 2 1=1 0=1\n", 1),
    ("P descending", "refused 6 rule 4 1", THREE + b"P 0 5 1=1 0=1\n", 1),
    ("one decision twice", "refused 6 rule 4 1", THREE + b"F 0=1 0=2\n", 1),
    ("a pair twice", "refused 6 rule 4 1", THREE + b"F 1=1 1=1\n", 1),
    ("the last of four descends", "refused 6 rule 6 1", FIVE + b"F 0=1 1=1 3=1 2=1\n", 1),
    ("6 before 7", "refused 6 rule 4 1", THREE + b"P 0 1000000001 1=1 0=1\n", 1),
    ("6 before 4", "refused 6 rule 4 1", THREE + b"F 9=1 0=1\n", 1),
    ("6 before 5", "refused 6 rule 4 1", THREE + b"F 1=0 0=1\n", 1),

    # --- 7: cents ---
    ("cents 0", OK, THREE + b"P 0 0 0=1\n", 1),
    ("cents 1000000000", OK, THREE + b"P 0 1000000000 0=1\n", 1),
    ("cents 1000000001", "refused 7 rule 4 1", THREE + b"P 0 1000000001 0=1\n", 1),
    ("cents 4294967295", "refused 7 rule 4 1", THREE + b"P 0 4294967295 0=1\n", 1),
    ("7 before 4", "refused 7 rule 4 1", THREE + b"P 0 1000000001 9=1\n", 1),
    ("7 before 5", "refused 7 rule 4 1", THREE + b"P 0 1000000001 0=0\n", 1),

    # --- 4: unknown decisions ---
    ("a rule and no decision", "refused 4 planner 1 1", b"F 0=1\n", 1),
    ("a pair with the number of decisions", "refused 4 planner 4 1", THREE + b"F 3=1\n", 1),
    ("a pair with the last decision", OK, THREE + b"F 2=1\n", 1),
    ("a pair with decision 255", "refused 4 planner 4 1", THREE + b"F 0=1 255=1\n", 1),
    ("a pair of A", "refused 4 planner 4 1", THREE + b"A 1 3=1\n", 1),
    ("a pair of P", "refused 4 planner 4 1", THREE + b"P 0 5 3=1\n", 1),
    ("a target with the number of decisions", "refused 4 planner 4 1", THREE + b"A 3 0=1\n", 1),
    ("target 255", "refused 4 planner 4 1", THREE + b"A 255 0=1\n", 1),
    ("4 before 5: the target", "refused 4 planner 4 1", THREE + b"A 3 0=0\n", 1),
    ("4 before 5: a later pair", "refused 4 planner 4 1", THREE + b"F 0=9 9=1\n", 1),

    # --- 5: unknown values ---
    ("value 0 in F", "refused 5 planner 4 1", THREE + b"F 0=0\n", 1),
    ("value 0 in A", "refused 5 planner 4 1", THREE + b"A 1 0=0\n", 1),
    ("value 0 in P", "refused 5 planner 4 1", THREE + b"P 0 5 0=0\n", 1),
    ("a value as large as the size", OK, THREE + b"F 1=2\n", 1),
    ("a value one above the size", "refused 5 planner 4 1", THREE + b"F 1=3\n", 1),
    ("a value one above the size in the second pair", "refused 5 planner 4 1", THREE + b"F 0=3 1=3\n", 1),
    ("value 255", "refused 5 planner 4 1", THREE + b"F 0=255\n", 1),

    # --- 8: a full table ---
    ("256 forbid rules", OK, THREE + 256 * b"F 0=1\n", 1),
    ("257 forbid rules", "refused 8 planner 260 1", THREE + 257 * b"F 0=1\n", 1),
    ("256 activate rules", OK, THREE + 256 * b"A 1 0=1\n", 1),
    ("257 activate rules", "refused 8 planner 260 1", THREE + 257 * b"A 1 0=1\n", 1),
    ("256 price rules", OK, THREE + 256 * b"P 0 5 0=1\n", 1),
    ("257 price rules", "refused 8 planner 260 1", THREE + 257 * b"P 0 5 0=1\n", 1),
    ("256 forbid rules, then one of each other kind", OK, THREE + 256 * b"F 0=1\n" + b"A 1 0=1\nP 0 5 0=1\n", 1),
    ("3 before 8", "refused 3 rule 260 1", THREE + 256 * b"A 1 0=1\n" + b"A 1\n", 1),
    ("6 before 8", "refused 6 rule 260 1", THREE + 256 * b"F 0=1\n" + b"F 1=1 0=1\n", 1),
    ("7 before 8", "refused 7 rule 260 1", THREE + 256 * b"P 0 5 0=1\n" + b"P 0 1000000001 0=1\n", 1),
    ("4 before 8", "refused 4 planner 260 1", THREE + 256 * b"F 0=1\n" + b"F 3=1\n", 1),
    ("5 before 8", "refused 5 planner 260 1", THREE + 256 * b"F 0=1\n" + b"F 0=4\n", 1),
    ("one rule more in the largest book", "refused 8 planner 833 1", LARGEST + b"A 0 0=1\n", 1),

    # --- 1 and 2: decisions ---
    ("64 decisions", OK, b"D 1 on\n", 64),
    ("65 decisions", "refused 1 planner 65 1", b"D 1 on\n", 65),
    ("size 0", "refused 2 planner 1 1", b"D 0 on\n", 1),
    ("size 16", OK, b"D 16 off\n", 1),
    ("size 17", "refused 2 planner 1 1", b"D 17 on\n", 1),
    ("size 255", "refused 2 planner 1 1", b"D 255 on\n", 1),
    ("65 decisions of size 17: the first line", "refused 2 planner 1 1", b"D 17 on\n", 65),
    ("a size before a 65th decision further down", "refused 2 planner 64 1", 63 * b"D 1 on\n" + b"D 0 on\nD 1 on\n", 1),
    ("1 before 2: a 65th decision of size 0", "refused 1 planner 65 1", 64 * b"D 1 on\n" + b"D 0 on\n", 1),

    # --- the first faulty line, whatever is wrong further down ---
    ("2 before a later 12", "refused 2 planner 2 1", b"D 3 on\nD 0 on\nX\n", 1),
    ("8 before a later 12", "refused 8 planner 260 1", THREE + 257 * b"F 0=1\n" + b"x\n", 1),
    ("5 before a later 15", "refused 5 planner 4 1", THREE + b"F 0=4\nF 0=1\nD 3 on\n", 1),
    ("13 before a later 14", "refused 13 text 4 3", THREE + b"F x\nF \n", 1),
    ("3 before a later 13", "refused 3 rule 5 1", THREE + b"F 0=1\nA 1\nF x\n", 1),
]


def frames():
    # At the end a frame of a number that no frame states, and one behind it: neither is read.
    return b"".join(b"%d %d\n" % (len(text), times) + text for _, _, text, times in CASES) + b"0 131073\n0 1\n"


def main(words):
    for name, said, text, times in CASES:
        got = oracle.load(text * times)
        got = oracle.fault_text(got).rstrip("\n") if isinstance(got, oracle.Fault) else OK
        if got != said:
            sys.exit(f"{name}: {said} is written, but the oracle says {got}")
    if words == ["list"]:
        for place, (name, said, _, _) in enumerate(CASES):
            print(f"{place + 1:3} {said:24} {name}")
        return
    if words:
        sys.exit(__doc__)
    top = os.path.join(os.path.dirname(os.path.abspath(__file__)), "..", "..", "crates", "damaged")
    os.makedirs(top, exist_ok=True)
    with open(os.path.join(top, "stdin"), "wb") as file:
        file.write(frames())
    with open(os.path.join(top, "stdout"), "w") as file:
        file.write("".join(said + "\n" for _, said, _, _ in CASES))
    print(f"{len(CASES)} cases")


if __name__ == "__main__":
    main(sys.argv[1:])
