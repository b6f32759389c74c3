"""Texts with one mistake each: the line it is on and what the message must say."""

TABLES = """\
table horses rows 4
  column number not null unique
  column weight default null
table trims rows 4
  column number not null unique
  column horse
key trims.horse -> horses.number on delete cascade deferred
journal 8
"""

SCHEMA_MISTAKES = [
    ("tabel horses rows 4\n", 1, "expected table, column, unique, key"),
    ("table\n", 1, "expected the table's name, found the end of the line"),
    ("table horses\n", 1, "expected 'rows', found the end of the line"),
    ("table horses rows many\n", 1, "expected the number of rows, found 'many'"),
    ("table horses rows 65536\n", 1, "from 0 to 65535, found 65536"),
    ("table horses rows -1\n", 1, "from 0 to 65535, found -1"),
    ("table horses rows " + "9" * 5000 + "\n", 1, "from 0 to 65535"),
    ("table horses rows 4 5\n", 1, "expected the end of the line, found '5'"),
    ("table horses rows 4\ntable horses rows 5\n", 2, "there is a table horses already"),
    ("column number\n", 1, "expected a table line above"),
    ("table a rows 1\n  column\n", 2, "expected the column's name"),
    ("table a rows 1\n  column x\n  column x\n", 3, "has a column x already"),
    ("table a rows 1\n  column x null\n", 2, "expected 'folded', 'not null', 'unique', 'default'"),
    ("table a rows 1\n  column x unique not null\n", 2, "found 'not'"),
    ("table a rows 1\n  column x not null folded\n", 2, "each at most once, found 'folded'"),
    ("table a rows 1\n  column x folded folded\n", 2, "each at most once, found 'folded'"),
    ("table a rows 1\n  column x default\n", 2, "expected a name in quotes, null or a whole number"),
    ("table a rows 1\n  column x default big\n", 2, "null or a whole number, found 'big'"),
    ("table a rows 1\n  column x default 9223372036854775808\n", 2, "to 9223372036854775807"),
    ("table a rows 1\n  column x\n  unique x\n", 3, "expected columns in parentheses"),
    ("table a rows 1\n  column x\n  unique (y)\n", 3, "expected a column of a (x), found 'y'"),
    ("table a rows 1\n  column x\n  unique (x, x)\n", 3, "expected each column once"),
    ("table a rows 1\n  column x\n  unique (x\n", 3, "expected ',' or ')'"),
    ("table a rows 1\n  column x unique\n" + "  unique (x)\n" * 4, 6, "at most 4 unique keys"),
    ("table a rows 1\n" + "".join(f"  column x{i}\n" for i in range(9)), 10, "at most 8 columns"),
    ("".join(f"table a{i} rows 1\n" for i in range(257)), 257, "expected at most 256 tables"),
    ("key trims.horse -> horses.number\n", 1, "there is none yet"),
    (TABLES + "journal 9\n", 9, "expected one journal line"),
    ("table a rows 1\n  column x\n", 2, "expected a line 'journal N'"),
    ("\n", 1, "expected a line 'journal N'"),
    ("journal\n", 1, "expected the number of journal records"),
    ("journal 8\n  column x\n", 2, "expected a table line above"),
    ("table a rows 1 ?\n", 1, "expected the end of the line, found '?'"),
    ("table a rows 1 !\n", 1, "a number, a name in quotes or one of -> ( ) , . = ?, found '!'"),
    ("table ?a rows 1\n", 1, "expected the table's name, found '?'"),
    ("table a rows 1\n  column ?x\n", 2, "expected the column's name, found '?'"),
    ("table a rows 1\n  column x\n  unique (x, ?y)\n", 3, "expected a column of a (x), found '?'"),
]

KEY_MISTAKES = [
    ("key trim.horse -> horses.number", "expected the name of a table (horses, trims), found 'trim'"),
    ("key trims horse -> horses.number", "expected '.', found 'horse'"),
    ("key trims.hoof -> horses.number", "expected a column of trims (number, horse), found 'hoof'"),
    ("key trims.horse horses.number", "expected '->'"),
    ("key trims.horse ->", "expected the name of a table (horses, trims), found the end"),
    ("key trims.horse -> horses.(number, weight)", "expected as many parent columns"),
    ("key trims.(horse, horse, horse, horse, horse) -> horses.number", "at most 4 columns"),
    ("key trims.horse -> horses.number on delete drop", "expected one of no action, restrict"),
    ("key trims.horse -> horses.number on update", "expected one of no action, restrict"),
    ("key trims.horse -> horses.number on delete cascade on delete cascade", "each at most once"),
    ("key trims.horse -> horses.number match", "expected one of simple, full, found the end"),
    ("key trims.horse -> horses.number match partial", "expected one of simple, full, found 'partial'"),
    ("key trims.horse -> horses.number match on delete cascade", "simple, full, found 'on'"),
    ("key trims.horse -> horses.number match full match full", "each at most once, found 'match'"),
    ("key trims.horse -> horses.number match simple match full", "each at most once, found 'match'"),
    ("key trims.horse -> horses.number on delete cascade match full", "in this order"),
    ("key trims.horse -> horses.number full", "expected 'windowed', 'match', 'on delete', 'on update'"),
    ("key trims.horse match full -> horses.number", "expected '->', found 'match'"),
    ("key trims.horse -> horses.number postponed", "found 'postponed'"),
    ("key trims.horse -> horses.number deferred on delete cascade", "in this order"),
]

WINDOWED = "key trims.(number, horse) -> horses.(number, weight)"
WINDOW_MISTAKES = [
    ("key trims.horse -> horses.number windowed", "columns in a windowed key, the last a day, found 1"),
    ("key trims.horse -> ?yards.?name windowed deferred", "at least 2 columns in a windowed key"),
    (f"{WINDOWED} windowed on delete set null", "after 'on delete' in a windowed key, found 'set null'"),
    (f"{WINDOWED} windowed on delete set default", "expected no action or restrict after 'on delete'"),
    (f"{WINDOWED} windowed on delete cascade deferred", "in a windowed key, found 'cascade'"),
    (f"{WINDOWED} windowed on update set null", "after 'on update' in a windowed key, found 'set null'"),
    (f"{WINDOWED} windowed on delete restrict on update set default", "restrict after 'on update' in a"),
    (f"{WINDOWED} windowed match full on update cascade", "in a windowed key, found 'cascade'"),
    (f"{WINDOWED} windowed windowed", "in this order, each at most once, found 'windowed'"),
    (f"{WINDOWED} match full windowed", "in this order, each at most once, found 'windowed'"),
    (f"{WINDOWED} on delete restrict windowed", "in this order, each at most once, found 'windowed'"),
    (f"{WINDOWED} deferred windowed", "in this order, each at most once, found 'windowed'"),
    (f"{WINDOWED} window", "in this order, each at most once, found 'window'"),
    ("key trims.(number, horse) windowed -> horses.(number, weight)", "expected '->', found 'windowed'"),
]

UNDRAWN_KEY_MISTAKES = [
    ("key ?trims.horse -> horses.number", "expected the name of a table (horses, trims), found '?'"),
    ("key trims.?hoof -> horses.number", "expected a column of trims (number, horse), found '?'"),
    ("key trims.(horse, ?1) -> horses.number", "expected a column of trims (number, horse), found '?'"),
    ("key trims.horse -> sensors.number", "the name of a table (horses, trims), found 'sensors'"),
    ("key trims.horse -> horses.chip", "expected a column of horses (number, weight), found 'chip'"),
    ("key trims.horse -> 2.0", "expected the name of a table (horses, trims), found '2'"),
    ("key trims.horse -> ?", "expected a name or a number after '?', found the end of the line"),
    ("key trims.horse -> ?.?number", "expected a name or a number after '?', found '.'"),
    ("key trims.horse -> ??sensors.?number", "expected a name or a number after '?', found '?'"),
    ("key trims.horse -> ?sensors", "expected '.', found the end of the line"),
    ("key trims.horse -> ?horses.?chip", "a table that is not drawn after '?', but horses is drawn"),
    ("key trims.horse -> ?1.?0", "the number of a table that is not drawn from 2 to 255, found 1"),
    ("key trims.horse -> ?256.?0", "the number of a table that is not drawn from 2 to 255, found 256"),
    ("key trims.horse -> ?-1.?0", "from 2 to 255, found -1"),
    ("key trims.horse -> ?sensors.number", "expected '?' before a column of ?sensors, which has none"),
    ("key trims.horse -> ?200.0", "expected '?' before a column of ?200, which has none that is drawn"),
    ("key trims.horse -> ?sensors.(?hoof, horse)", "'?' before a column of ?sensors, which has none"),
    ("key trims.horse -> ?sensors.?", "expected a name or a number after '?', found the end"),
    ("key trims.horse -> ?sensors.?256", "of a column of ?sensors that is not drawn from 0 to 255"),
    ("key trims.horse -> horses.?number", "of horses that is not drawn after '?', but number is drawn"),
    ("key trims.horse -> horses.?1", "of a column of horses that is not drawn from 2 to 255, found 1"),
    ("key trims.horse -> horses.?256", "from 2 to 255, found 256"),
    ("key trims.horse -> ?sensors.(?horse, ?hoof)", "expected as many parent columns as child columns"),
    ("key trims.horse -> ?sensors.(?a, ?b, ?c, ?d, ?e)", "expected at most 4 columns, found 5"),
    ("key trims.horse -> ?sensors.?number drawn", "in this order, each at most once, found 'drawn'"),
]

CALL_MISTAKES = [
    ("insert", "expected the name of a table"),
    ("insert goats 0 number=1", "expected the name of a table (horses, trims), found 'goats'"),
    ("insert ?sensors 0 number=1", "expected the name of a table (horses, trims), found '?'"),
    ("insert trims 0 ?chip=1", "expected a column of trims (number, horse), found '?'"),
    ("delete ?2 0", "expected the name of a table (horses, trims), found '?'"),
    ("insert trims number=1", "expected a row number, found 'number'"),
    ("insert trims 0 number=1", "expected every column of trims, horse is missing"),
    ("insert trims 0 number=1 horse=2 horse=3", "horse is given twice"),
    ("insert trims 0 number=1 hoof=2", "expected a column of trims (number, horse), found 'hoof'"),
    ("insert trims 0 number 1 horse=2", "expected '=', found '1'"),
    ("insert trims 0 number= horse=2", "null or a whole number, found 'horse'"),
    ("insert trims 0 number=1 horse=NULL", "null or a whole number, found 'NULL'"),
    ("insert trims 0 number=1 horse=-9223372036854775809", "from -9223372036854775808"),
    ("insert trims 0 number=1.5 horse=2", "found '.'"),
    ("delete trims", "expected a row number or 'where', found the end of the line"),
    ("delete trims -9223372036854775809", "expected a row number from -9223372036854775808"),
    ("delete trims 0 number=1", "expected the end of the line, found 'number'"),
    ("begin 1", "expected the end of the line, found '1'"),
    ("release", "expected a level, found the end of the line"),
    ("rollback 1", "expected the end of the line, found '1'"),
    ("rollback to", "expected a level"),
    ("begn", "found 'begn'"),
    ("words 1 2 3", "expected twelve words, found 3"),
    ("words 1 2 3 4 5 6 7 8 9 10 11 12 13", "expected twelve words, found 13"),
    ("words 1 x", "expected a word, found 'x'"),
    ("bytes 4", "expected bytes of two hexadecimal digits, found '4'"),
    ("bytes 4G", "found '4G'"),
    ("bytes", "expected 1 to 95 bytes"),
    ("bytes" + " 00" * 96, "expected 1 to 95 bytes"),
]

QUESTION_MISTAKES = [
    ("bound 3", "expected the end of the line, found '3'"),
    ("bound horses 0", "expected the end of the line, found 'horses'"),
    ("bound bound", "expected the end of the line, found 'bound'"),
    ("bound ?", "expected the end of the line, found '?'"),
    ("bound !", "a number, a name in quotes or one of -> ( ) , . = ?, found '!'"),
    ("Bound x", "rollback, commit, bound, words or bytes, found 'Bound'"),
    ("bounds", "rollback, commit, bound, words or bytes, found 'bounds'"),
    ("orphans", "rollback, commit, bound, words or bytes, found 'orphans'"),
    ('"bound"', "rollback, commit, bound, words or bytes, found '\"bound\"'"),
    ("delete bound", "expected the name of a table (horses, trims), found 'bound'"),
]

WHERE_MISTAKES = [
    ("insert trims where horse = 5", "expected a row number, found 'where'"),
    ("delete where horse = 5", "expected the name of a table (horses, trims), found 'where'"),
    ("delete trims 0 where horse = 5", "expected the end of the line, found 'where'"),
    ("delete trims set horse=6", "expected a row number or 'where', found 'set'"),
    ("delete trims where", "expected a column of trims (number, horse), found the end of the line"),
    ("delete trims where hoof = 5", "expected a column of trims (number, horse), found 'hoof'"),
    ("delete trims where horse 5", "expected '=', found '5'"),
    ("delete trims where horse is null", "expected '=', found 'is'"),
    ("delete trims where horse =", "null or a whole number, found the end of the line"),
    ("delete trims where horse = number", "null or a whole number, found 'number'"),
    ("delete trims where horse = 9223372036854775808", "to 9223372036854775807, found 92233720"),
    ("delete trims where horse = 5 and number = 1", "expected the end of the line, found 'and'"),
    ("update trims horse=6", "expected a row number or 'set', found 'horse'"),
    ("update trims where horse = 5", "expected a row number or 'set', found 'where'"),
    ("update trims set where horse = 5", "expected a column of trims (number, horse), found 'where'"),
    ("update trims set hoof=6 where horse = 5", "a column of trims (number, horse), found 'hoof'"),
    ("update trims set horse where horse = 5", "expected '=', found 'where'"),
    ("update trims set horse=-9223372036854775809 where horse = 5", "from -9223372036854775808"),
    ("update trims set horse=6", "expected 'where' (one column is set), found the end of the line"),
    ("update trims set horse=6 number=7 where horse = 5", "(one column is set), found 'number'"),
    ("update trims set horse=6, number=7 where horse = 5", "(one column is set), found ','"),
    ("update trims set horse=6 where horse = 5 6", "expected the end of the line, found '6'"),
]

# Names as values: what is between the quotes, and quotes where no value may stand.
VALUE_NAME_MISTAKES = [
    ('insert trims 0 number=1 horse="Lf2345678"', "expected a name of 1 to 8 characters, found 9"),
    ('insert trims 0 number=1 horse=""', "expected a name of 1 to 8 characters, found 0"),
    ('insert trims 0 number=1 horse="Läf"', "from space to ~ in a name, found 'ä'"),
    ('insert trims 0 number="Lf\t2" horse=1', "in a name, found '\\t'"),
    ('insert trims 0 number="Lf2\x7f" horse=1', "in a name, found '\\x7f'"),
    ('insert trims 0 number="Lf2\x00" horse=1', "in a name, found '\\x00'"),
    ('insert trims 0 number="Läufer und Gänger" horse=1', "in a name, found 'ä'"),
    ('update trims 0 number=1 horse="Lf2', "a second quote after '\"', found the end of the line"),
    ('update trims 0 number=1 horse="Lf2 # a comment', "a second quote after '\"', found the end"),
    ('update trims 0 number=1 horse=Lf2"', "expected a second quote after '\"', found the end"),
    ('update trims 0 number=1 horse=Lf2', "a name in quotes, null or a whole number, found 'Lf2'"),
    ("update trims 0 number=1 horse='Lf2'", "a name in quotes or one of -> ( ) , . = ?, found \"'\""),
    ('update trims 0 number=1 horse=-"Lf2"', "found '-'"),
    ('update trims 0 number=1 horse="Lf" "2"', "a column of trims (number, horse), found '\"2\"'"),
    ('update trims 0 number=1 "horse"="Lf2"', "a column of trims (number, horse), found '\"horse\"'"),
    ('update trims "0" number=1 horse=2', "expected a row number or 'set', found '\"0\"'"),
    ('update trims set horse="Lf2" where horse = "Lf23456 8"', "of 1 to 8 characters, found 9"),
    ('update trims set horse="Lf\r2" where horse = "Lf2"', "in a name, found '\\r'"),
    ('delete trims where horse = "Lf2" "Lf3"', "expected the end of the line, found '\"Lf3\"'"),
    ('delete trims where "horse" = 2', "a column of trims (number, horse), found '\"horse\"'"),
    ('delete "trims" 0', "the name of a table (horses, trims), found '\"trims\"'"),
    ('delete trims "0"', "expected a row number or 'where', found '\"0\"'"),
    ('"begin"', "rollback, commit, bound, words or bytes, found '\"begin\"'"),
    ('rollback to "1"', "expected a level, found '\"1\"'"),
    ('words "Lf2" 0 0 0 0 0 0 0 0 0 0 0', "expected a word, found '\"Lf2\"'"),
    ('bytes "46"', "expected bytes of two hexadecimal digits, found '\"46\"'"),
]
SCHEMA_NAME_MISTAKES = [
    ('table "a" rows 1\n', 1, "expected the table's name, found '\"a\"'"),
    ('table a rows "1"\n', 1, "expected the number of rows, found '\"1\"'"),
    ('table a rows 1\n  column "x"\n', 2, "expected the column's name, found '\"x\"'"),
    ('table a rows 1\n  column x "Lf2"\n', 2, "each at most once, found '\"Lf2\"'"),
    ('table a rows 1\n  column x folded default ""\n', 2, "of 1 to 8 characters, found 0"),
    ('table a rows 1\n  column x default "Lf2\n', 2, "expected a second quote after '\"'"),
    ('table a rows 1\n  column x default "Lf2" unique\n', 2, "in this order, each at most once"),
    ('table a rows 1\n  column x\n  unique ("x")\n', 3, "expected a column of a (x), found '\"x\"'"),
    ('journal "8"\n', 1, "expected the number of journal records, found '\"8\"'"),
]

LATE_TABLE = "key trims.horse -> ?sensors.?number\ntable sensors rows 4\n"
ALL_TABLES = "".join(f"table a{i} rows 1\n" for i in range(255)) + "table b rows 1\n  column x\n"
ALL_COLUMNS = "table a rows 1\n  column w\n  column x\n  column y\n  column z\n" + "".join(
    f"key a.(w, x, y, z) -> ?b.(?c{i}, ?c{i + 1}, ?c{i + 2}, ?c{i + 3})\n" for i in range(0, 256, 4)
)

NUMBER_MISTAKES = [
    (TABLES.rsplit("journal", 1)[0] + LATE_TABLE, 9, "every table above the first key to a table that"),
    (ALL_TABLES + "key b.x -> ?c.?x\n", 258, "expected no more names after '?', the numbers up to 255"),
    (ALL_COLUMNS + "key a.w -> ?b.?d\n", 70, "expected no more names after '?', the numbers up to 255"),
]

ORDER_MISTAKES = [
    ("begin\n", 1, "expected a line 'journal N' before calls"),
    ("table a rows 1\nbegin\n", 2, "expected a line 'journal N' before calls"),
    ("table a rows 1\nbytes 00\n", 2, "expected a line 'journal N' before calls"),
    ("bound\n", 1, "expected a line 'journal N' before calls"),
    ("table a rows 1\nbound\njournal 8\n", 2, "expected a line 'journal N' before calls"),
    (TABLES + "bound\ntable goats rows 1\n", 10, "expected a call or a question"),
    (TABLES + "bound\njournal 9\n", 10, "expected a call or a question"),
    (TABLES + "bytes 00\nbound\n", 10, "expected 'bytes' or the end of the text"),
    ("bytes 00\nbound\n", 2, "expected 'bytes' or the end of the text"),
    (TABLES + "begin\ntable goats rows 1\n", 10, "expected a call or a question"),
    (TABLES + "begin\njournal 9\n", 10, "expected a call or a question"),
    (TABLES + "bytes 00\nbegin\n", 10, "expected 'bytes' or the end of the text"),
    ("bytes 00\ntable a rows 1\n", 2, "expected 'bytes' or the end of the text"),
]


def all_mistakes():
    """Triples of a text, the line of its mistake and a part of the message."""
    before_journal, at_key = TABLES.rsplit("journal", 1)[0], 8
    yield from SCHEMA_MISTAKES
    yield from SCHEMA_NAME_MISTAKES
    for line, message in KEY_MISTAKES + WINDOW_MISTAKES + UNDRAWN_KEY_MISTAKES:
        yield before_journal + line + "\njournal 8\n", at_key, message
    for line, message in CALL_MISTAKES + QUESTION_MISTAKES + WHERE_MISTAKES + VALUE_NAME_MISTAKES:
        yield TABLES + "\n# calls\n" + line + "\ncommit\n", 11, message
    yield from NUMBER_MISTAKES
    yield from ORDER_MISTAKES
