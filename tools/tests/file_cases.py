"""Files for tools/test_program: forms of the same rows, and faulty files with their faults."""

from tests.rules import MARK

TWO = b"1; 1; 2; 3; 5; 2\n2; 2; 1; 4; 6; 1\n"
TWO_TIMES = b"1; 0\n2; 3\n"
TWO_FIXED = b"1; 5\n"
ROWS = TWO.splitlines(keepends=True)
COMMA_ROWS = b"1,1,2,3,5,2\n2,2,1,4,6,1\n"

# Each represents TWO.
ACTIVITY_FORMS = {
    "rows in another order": ROWS[1] + ROWS[0],
    "line ends of Windows": TWO.replace(b"\n", b"\r\n"),
    "carriage returns alone": TWO.replace(b"\n", b"\r"),
    "line ends of all kinds": b"\r\r\n" + ROWS[0].replace(b"\n", b"\r") + ROWS[1].replace(b"\n", b"\r\n") + b"\n\r",
    "no last line end": TWO[:-1],
    "empty lines and lines of blanks": b"\n \t\n\n" + ROWS[0] + b"\t\n\n\n" + ROWS[1] + b" ",
    "blanks, signs and leading zeros": b"\t+1;1 ;\t002; +3;5;2\n \n  2; 2; 1; 04; 00000000000000000000006; 1\n\n",
    "ten thousand zeros": b"0" * 10_000 + TWO,
    "a byte order mark": MARK + TWO,
    "a byte order mark and no last line end": MARK + COMMA_ROWS[:-1],
    "a byte order mark before a quote": MARK + b'"1"' + TWO[1:],
    "a byte order mark before a header": MARK + b"activity;from\n" + TWO,
    "a byte order mark before a comment": MARK + b"# two trains\n" + TWO,
    "commas": COMMA_ROWS,
    "commas and blanks": COMMA_ROWS.replace(b",", b"\t, "),
    "commas and points": b"1,1,2,3,5,2.0\n2,2,1,4,6,1.\n",
    "a separator at the end of a row": b"1; 1; 2; 3; 5; 2;\n2; 2; 1; 4; 6; 1; \t\n",
    "a comma at the end of a row": COMMA_ROWS.replace(b"\n", b",\n"),
    "an empty quoted field at the end": b'1; 1; 2; 3; 5; 2;""\n2; 2; 1; 4; 6; 1;" "\n',
    "a header": b"activity; from; to; lower; upper; weight\n" + TWO,
    "a header of one word": b"Z\n" + TWO,
    "a header in quotes": b'"activity";"from";"to";"lower ""l""";"upper";"weight; cost"\n' + TWO,
    "a header in quotes over two lines": b'"activity\nnumber";from;to;lower;upper;weight\n' + TWO,
    "a header with commas over rows with semicolons": b"activity,from,to,lower,upper,weight\n" + TWO,
    "a header after comments and blank lines": b"# two trains\n\n \t\n#\n a;b\n" + TWO,
    "a row that begins with a letter, as a header": b"l; 1; 2; 3; 5; 2\n" + TWO,
    "a line of a spreadsheet that names the separator": b"sep=;\r\n" + TWO,
    "a line of a spreadsheet that names the comma": b"sep=,\r\n" + COMMA_ROWS,
    "comments": b"# a\n" + ROWS[0] + b" \t# b; c; d; e; f; g; h\n#1; 1; 2; 3; 5; 2\n" + ROWS[1] + b"#",
    "a comment in quotes": b'"# one ""comment""; over\ntwo lines";x\n' + TWO,
    "quotes within a comment's fields": b'# the "old" line; 6" wide\n' + TWO,
    "comments with a byte that is not UTF-8": b"# caf\xe9\n" + TWO,
    "quotes round each field": b'"1";"1";"2";"3";"5";"2"\n"2";"2";"1";"4";"6";"1"\n',
    "blanks within quotes and after them": b'" 1\t" ;1;2;3;"5 "\t;2\n2; 2; 1; 4; 6;"1"',
    "digits after a quote": b'"1"; 1; 2; 3; 5; 2\n"0"2; 2; 1; 4; 6; 1\n',
    "a quote that is not closed": ROWS[0] + b'2; 2; 1; 4; 6;"1\t',
    "records of an empty quoted field": b'""\n' + ROWS[0] + b'" \t"\n' + ROWS[1],
    "a weight with a point": b"1; 1; 2; 3; 5; 2.\n2; 2; 1; 4; 6; 1.\n",
    "a weight with zeros": b"1; 1; 2; 3; 5; 2.0;\n2; 2; 1; 4; 6; +01.000\n",
    "a weight with ten thousand zeros": b"1; 1; 2; 3; 5; 2." + b"0" * 10_000 + b"\n" + ROWS[1],
}

# Each represents TWO_TIMES, at period 10.
EVENT_FORMS = {
    "rows in another order": b"2; 3\n1; 0",
    "line ends of Windows": b"1; 0\r\n2; 3\r\n",
    "carriage returns alone": b"\r1; 0\r2; 3",
    "blanks, signs and leading zeros": b"1;-0\n\n 2\t;\t+00000000000000000000003 ",
    "times outside the period": b"1; -10\n2; 23\n",
    "times far outside the period": b"1; -1000000000\n2; 999999993\n",
    "a byte order mark": MARK + TWO_TIMES,
    "commas": b"1,0\n2,3\n",
    "a separator at the end of a row": b"1; 0;\n2; 3; \n",
    "a header": b"event; time\n1; 0\n2; 3\n",
    "a header and a byte order mark, with commas": MARK + b"event,time\r\n1,0\r\n2,3\r\n",
    "a row that begins with a letter, as a header": b"O; 0\n" + TWO_TIMES,
    "a header and a byte order mark, and no last line end": MARK + b"event,time\n1,0\n2,3",
    "a header, commas, line ends of Windows and no last one": MARK + b"event,time\r\n1,0\r\n2,3",
    "a comment, quotes, an empty line, a sign and a separator at the end": b'# trains\n"1";"0"\n\n+02 ;" 3";\n',
    "comments": b"# times\n1; 0\n\t# 1; 1\n2; 3\n#",
    "a comment, an empty line and a line of one blank": b"# trains\n\n1; 0\n \n2; 3\n",
    "quotes": b'"1";"0"\n"2"; 3\n',
    "quotes, with blanks after and within them": b'"1";"0"\n"2" ;" 3"\n',
    "signs, a zero and separators at the end": b"+01; -0;\n2; 3; \n",
}


# The texts of faults of rows


FIELDS = "wrong number of fields"
FRACTION = "weight has a fraction"
CROSSED = "lower bound above upper bound"
TWICE = "activity number is repeated"
EVENT_TWICE = "event is repeated"
ABSENT = "event is not in the instance"
EVENTS = "too many events"
ACTIVITIES = "too many activities"


def bad(field: object) -> str:
    return f"field {field} is not a number"


def out(field: object) -> str:
    return f"field {field} is out of range"


# For each faulty file: its bytes, the number of the named record, and its fault.
ACTIVITY_FAULTS = {
    "five fields": (b"1; 1; 2; 3; 5", 1, FIELDS),
    "seven fields": (b"1; 1; 2; 3; 5; 2; x", 1, FIELDS),
    "seven fields and a separator": (b"1; 1; 2; 3; 5; 2; x;", 1, FIELDS),
    "two separators at the end": (b"1; 1; 2; 3; 5; 2;;", 1, FIELDS),
    "an empty weight": (b"1; 1; 2; 3; 5; ", 1, FIELDS),
    "an empty weight and a separator": (b"1; 1; 2; 3; 5; ;", 1, bad(6)),
    "an empty number": (b"; 1; 2; 3; 5; 2", 1, bad(1)),
    "a separator alone": (b";", 1, FIELDS),
    "an empty row of a spreadsheet": (COMMA_ROWS + b",,,,,\n", 3, FIELDS),
    "commas beside a semicolon": (b"1,1,2,3,5,2\n2; 2; 1; 4; 6; 1", 1, FIELDS),
    "commas below a comment with a semicolon": (b"# a; b\n" + COMMA_ROWS, 2, FIELDS),
    "commas above a semicolon in quotes": (COMMA_ROWS + b'# "a;b"', 1, FIELDS),
    "a decimal comma among commas": (b"1,1,2,3,5,2,0", 1, FIELDS),
    "tabs between fields": (TWO.replace(b"; ", b"\t"), 1, FIELDS),
    "tabs below a header": (b"activity\tfrom\tto\n" + TWO.replace(b"; ", b"\t"), 2, FIELDS),
    "UTF-16": ("\ufeff".encode("utf-16-le") + TWO.decode().encode("utf-16-le"), 1, bad(1)),
    "UTF-16 with the greater byte first": (("\ufeff" + TWO.decode()).encode("utf-16-be"), 1, bad(1)),
    "a header in UTF-16 without a mark": (("activity; from\n" + TWO.decode()).encode("utf-16-le"), 2, bad(1)),
    "a line that names the separator, and a header": (b"sep=;\na; b; c; d; e; f\n" + TWO, 2, bad(1)),
    "a column of types": (b"1; drive; 1; 2; 3; 5; 2", 1, FIELDS),
    "a column of types below a header": (b"activity; type\n1; drive; 1; 2; 3; 5; 2", 2, FIELDS),
    "times in the place of activities": (TWO_TIMES, 1, FIELDS),
    "a comment after a row": (b"1; 1; 2; 3; 5; 2 # fast", 1, bad(6)),
    "a comment in a field after a row": (b"1; 1; 2; 3; 5; 2; # fast", 1, FIELDS),
    "a comment after an empty field": (b"; # fast", 1, FIELDS),
    "a comment of another kind": (b"// a; b; c; d; e; f", 1, bad(1)),
    "a letter for a digit below a header": (b"activity\nl; 1; 2; 3; 5; 2\n", 2, bad(1)),
    "two headers": (b"activity\nactivity; from; to; lower; upper; weight\n" + TWO, 2, bad(1)),
    "a header after a row": (TWO + b"activity; from; to; lower; upper; weight", 3, bad(1)),
    "a header that does not begin with a letter": (b"_a; from; to; lower; upper; weight", 1, bad(1)),
    "a header that begins with a letter beyond ASCII": ("Événement; b; c; d; e; f".encode(), 1, bad(1)),
    "two byte order marks": (MARK * 2 + TWO, 1, bad(1)),
    "a byte order mark after a comment": (b"#\n" + MARK + TWO, 2, bad(1)),
    "a part of a byte order mark": (MARK[:2] + TWO, 1, bad(1)),
    "a blank before a quote": (b' "1"; 1; 2; 3; 5; 2', 1, bad(1)),
    "a blank before a later quote": (b'1;"1"; "2"; 3; 5; 2', 1, bad(3)),
    "two quotes on either side": (b'""1""; 1; 2; 3; 5; 2', 1, bad(1)),
    "a doubled quote within quotes": (b'"1""1"; 1; 2; 3; 5; 2', 1, bad(1)),
    "a quote that is not closed": (b'"1; 1; 2; 3; 5; 2\n2; 2; 1; 4; 6; 1\n', 1, FIELDS),
    "a quote in a comment that takes rows in": (b'# a;"b\n' + TWO + b'c"; d\n2; 2', 2, FIELDS),
    "a line end in quotes": (b'"1\n"; 1; 2; 3; 5; 2', 1, bad(1)),
    "a bound with a point": (b"1; 1; 2; 3.0; 5; 2", 1, bad(4)),
    "a number with a point": (b"1.; 1; 2; 3; 5; 2", 1, bad(1)),
    "a weight with a fraction": (b"1; 1; 2; 3; 5; 2.5", 1, FRACTION),
    "a weight with a small fraction": (b"1; 1; 2; 3; 5; 2." + b"0" * 10_000 + b"1", 1, FRACTION),
    "a fraction of nothing": (b"1; 1; 2; 3; 5; -0.5", 1, FRACTION),
    "a fraction out of range": (b"1; 1; 2; 3; 5; 1000000001.5", 1, FRACTION),
    "a weight with a point out of range": (b"1; 1; 2; 3; 5; 1000000001.0", 1, out(6)),
    "a weight with a point below zero": (b"1; 1; 2; 3; 5; -1.", 1, out(6)),
    "a point alone": (b"1; 1; 2; 3; 5; .", 1, bad(6)),
    "zeros after a point alone": (b"1; 1; 2; 3; 5; .0", 1, bad(6)),
    "a sign and a point": (b"1; 1; 2; 3; 5; +.0", 1, bad(6)),
    "two points": (b"1; 1; 2; 3; 5; 2.0.0", 1, bad(6)),
    "a letter after a point": (b"1; 1; 2; 3; 5; 2.5e1", 1, bad(6)),
    "a blank after a point": (b"1; 1; 2; 3; 5; 2. 0", 1, bad(6)),
    "a letter before a fraction": (b"1; 1; 2; 3; 5; x.5", 1, bad(6)),
    "a decimal comma": (b"1; 1; 2; 3; 5; 2,0", 1, bad(6)),
    "a fraction before crossed bounds": (b"1; 1; 2; 5; 3; 2.5", 1, FRACTION),
    "a bad number before a fraction": (b"1; 1; 2; x; 3; 2.5", 1, bad(4)),
    "a form feed": (b"1; 1; 2; 3; 5; 2\x0c", 1, bad(6)),
    "a byte that is not UTF-8": (b"1; 1; 2; 3; 5; \xff", 1, bad(6)),
    "a blank beyond ASCII": ("1; 1; 2; 3; 5; 2\u00a0".encode(), 1, bad(6)),
    "a zero byte": (b"1; 1; 2; 3; 5; 2\0", 1, bad(6)),
    "a sign alone": (b"1; 1; 2; -; 5; 2", 1, bad(4)),
    "two signs": (b"1; 1; 2; --3; 5; 2", 1, bad(4)),
    "a blank after the sign": (b"1; 1; 2; - 3; 5; 2", 1, bad(4)),
    "a blank in a number": (b"1 0; 1; 2; 3; 5; 2", 1, bad(1)),
    "hexadecimal": (b"0x1; 1; 2; 3; 5; 2", 1, bad(1)),
    "an exponent": (b"1; 1; 2; 3; 5; 1e3", 1, bad(6)),
    "digits of another script": ("١; 1; 2; 3; 5; 2".encode(), 1, bad(1)),
    "the first field greater": (b"1000000000; 1; 2; 3; 5; 2", 1, out(1)),
    "the first field negative": (b"-1; 1; 2; 3; 5; 2", 1, out(1)),
    "the second field greater": (b"1; 1000000000; 2; 3; 5; 2", 1, out(2)),
    "the second field negative": (b"1; -1; 2; 3; 5; 2", 1, out(2)),
    "the third field greater": (b"1; 1; 1000000000; 3; 5; 2", 1, out(3)),
    "the third field negative": (b"1; 1; -1; 3; 5; 2", 1, out(3)),
    "the fourth field greater": (b"1; 1; 2; 1000001; 5; 2", 1, out(4)),
    "the fourth field less": (b"1; 1; 2; -1000001; 5; 2", 1, out(4)),
    "the fifth field greater": (b"1; 1; 2; 3; 1000001; 2", 1, out(5)),
    "the fifth field less": (b"1; 1; 2; 3; -1000001; 2", 1, out(5)),
    "the sixth field greater": (b"1; 1; 2; 3; 5; 1000000001", 1, out(6)),
    "the sixth field negative": (b"1; 1; 2; 3; 5; -1", 1, out(6)),
    "more than any machine word": (b"1; 1; 2; 3; 5; " + b"9" * 400, 1, out(6)),
    "far below any machine word": (b"1; 1; 2; -" + b"9" * 400 + b"; 5; 2", 1, out(4)),
    "2 to the 64th and 1": (b"18446744073709551617; 1; 2; 3; 5; 2", 1, out(1)),
    "2 to the 128th and 1": (b"340282366920938463463374607431768211457; 1; 2; 3; 5; 2", 1, out(1)),
    "crossed bounds": (b"1; 1; 2; 5; 3; 2", 1, CROSSED),
    "a repeated number": (b"1; 1; 2; 3; 5; 2\n1; 2; 1; 4; 6; 1\n", 2, TWICE),
    "a repeated number in other words": (b"1; 1; 2; 3; 5; 2\n+01; 1; 2; 3; 5; 2\n", 2, TWICE),
    "a repeat before a short row": (b"1; 1; 2; 3; 5; 2\n1; 2; 1; 4; 6; 1\n2; 2; 1", 2, TWICE),
    "a short row before a repeat": (b"1; 1; 2; 3; 5; 2\n2; 2; 1; 4\n1; 2; 1; 4; 6; 1", 2, FIELDS),
    "the last line without a line end": (TWO + b"3", 3, FIELDS),
    "the first faulty field": (b"1000000000; x; 2; 3; 5; 2", 1, out(1)),
    "a later field before crossed bounds": (b"1; 1; 2; 5; 3; x", 1, bad(6)),
    "crossed bounds before a repeat": (TWO + b"1; 1; 2; 5; 3; 2", 3, CROSSED),
    "too few fields before a bad number": (b"9x; 1", 1, FIELDS),
    "empty lines are not counted": (b"\n\r\n\r" + ROWS[0] + b"\n\n" + ROWS[1] + b"\n3", 3, FIELDS),
    "lines of blanks are counted": (b" \n\t\n" + ROWS[0] + b"  \n" + ROWS[1] + b" \n3", 7, FIELDS),
    "comments and the header are counted": (b"# a\nactivity\n#\n" + TWO + b"#\n3", 7, FIELDS),
    "a record over two lines is counted once": (b'"# a\nb"\n"a\r\nb"\n3', 3, FIELDS),
}

# With the events 1 and 2 of TWO, so that these are faults of fixed times too.
EVENT_FAULTS = {
    "one field": (b"1", 1, FIELDS),
    "three fields": (b"1; 0; 0", 1, FIELDS),
    "two separators at the end": (b"1; 0;;", 1, FIELDS),
    "an empty first field": (b"; 0", 1, bad(1)),
    "an empty second field": (b"1; ", 1, FIELDS),
    "an empty second field and a separator": (b"1; ;", 1, bad(2)),
    "a blank before a quote": (b'1; "0"', 1, bad(2)),
    "a header after a row": (b"1; 0\nevent; time", 2, bad(1)),
    "commas below a comment with a semicolon": (b"# a; b\n1,0\n2,3\n", 2, FIELDS),
    "an empty row of a spreadsheet": (b"1,0\n,\n", 2, FIELDS),
    "names of events": (b"Ashford; 0\nBenton; 3\n", 2, bad(1)),
    "names of events below a header": (b"event; time\nAshford; 0\nBenton; 3\n", 2, bad(1)),
    "activities in the place of times": (TWO, 1, FIELDS),
    "UTF-16": (("\ufeff" + TWO_TIMES.decode()).encode("utf-16-le"), 1, bad(1)),
    "a time with a point": (b"1; 0.0", 1, bad(2)),
    "a time of the clock": (b"1; 0:30", 1, bad(2)),
    "the event greater": (b"1000000000; 0", 1, out(1)),
    "the event negative": (b"-1; 0", 1, out(1)),
    "the time greater": (b"1; 1000000001", 1, out(2)),
    "the time less": (b"1; -1000000001", 1, out(2)),
    "a time of many digits": (b"1; " + b"9" * 400, 1, out(2)),
    "a repeated event": (b"1; 0\n\n2; 0\n1; 0", 3, EVENT_TWICE),
    "a repeated event in other words": (b"1; 0\n+001; 0", 2, EVENT_TWICE),
    "a repeat before a short row": (b"1; 0\n1; 0\n2", 2, EVENT_TWICE),
    "a short row before a repeat": (b"1; 0\n2\n1; 0", 2, FIELDS),
    "the first faulty field": (b"-1; x", 1, out(1)),
    "lines of blanks are counted": (b" \n\n# a\ntime\n1; 0\n\t\n2", 6, FIELDS),
}

FIXED_FAULTS = {
    "an event that no activity names": (b"7; 0", 1, ABSENT),
    "an event that no activity names, after others": (b"# a\n2; 3\n1; 0\n3; 0", 4, ABSENT),
    "the number of an activity": (b"event; time\n11; 0", 2, ABSENT),
    "the first of two events that no activity names": (b"7; 0\n7; 0", 1, ABSENT),
    "a repeat before an event that no activity names": (b"1; 0\n1; 0\n7; 0", 2, EVENT_TWICE),
    "a short row before an event that no activity names": (b"1; 0\n2\n7; 0", 2, FIELDS),
    "an event that no activity names before a short row": (b"1; 0\n7; 0\n2", 2, ABSENT),
    "a time out of range before an event that no activity names": (b"7; 1000000001", 1, out(2)),
}
