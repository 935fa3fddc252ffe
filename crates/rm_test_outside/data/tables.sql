-- The tables that others wrote, by the sqlite3 shell: sqlite3 < tables.sql

.open a_head.catalog
pragma page_size = 512;
pragma journal_mode = wal;
CREATE TABLE record (number INTEGER NOT NULL, kind INTEGER NOT NULL, id INTEGER NOT NULL, body BLOB NOT NULL, PRIMARY KEY (number, kind, id));
INSERT INTO record VALUES (0, 8, 0, x'00000000010000000000000005');

.open another_number.catalog
pragma page_size = 512;
pragma journal_mode = wal;
CREATE TABLE record (number INTEGER NOT NULL, kind INTEGER NOT NULL, id INTEGER NOT NULL, body BLOB NOT NULL, PRIMARY KEY (number, kind, id));
INSERT INTO record VALUES (1, 200, 0, x'00');

.open a_byte_too_few.catalog
pragma page_size = 512;
pragma journal_mode = wal;
CREATE TABLE record (number INTEGER NOT NULL, kind INTEGER NOT NULL, id INTEGER NOT NULL, body BLOB NOT NULL, PRIMARY KEY (number, kind, id));
INSERT INTO record VALUES (0, 8, 0, x'000000000100000000000000');

.open a_byte_too_many.catalog
pragma page_size = 512;
pragma journal_mode = wal;
CREATE TABLE record (number INTEGER NOT NULL, kind INTEGER NOT NULL, id INTEGER NOT NULL, body BLOB NOT NULL, PRIMARY KEY (number, kind, id));
INSERT INTO record VALUES (0, 8, 0, x'0000000001000000000000000500');

.open a_flag_of_2.catalog
pragma page_size = 512;
pragma journal_mode = wal;
CREATE TABLE record (number INTEGER NOT NULL, kind INTEGER NOT NULL, id INTEGER NOT NULL, body BLOB NOT NULL, PRIMARY KEY (number, kind, id));
INSERT INTO record VALUES (0, 8, 0, x'02000000010000000000000005');

.open an_id_of_1.catalog
pragma page_size = 512;
pragma journal_mode = wal;
CREATE TABLE record (number INTEGER NOT NULL, kind INTEGER NOT NULL, id INTEGER NOT NULL, body BLOB NOT NULL, PRIMARY KEY (number, kind, id));
INSERT INTO record VALUES (0, 8, 1, x'00000000010000000000000005');

.open a_kind_of_200.catalog
pragma page_size = 512;
pragma journal_mode = wal;
CREATE TABLE record (number INTEGER NOT NULL, kind INTEGER NOT NULL, id INTEGER NOT NULL, body BLOB NOT NULL, PRIMARY KEY (number, kind, id));
INSERT INTO record VALUES (0, 200, 0, x'00');

.open a_kind_of_-1.catalog
pragma page_size = 512;
pragma journal_mode = wal;
CREATE TABLE record (number INTEGER NOT NULL, kind INTEGER NOT NULL, id INTEGER NOT NULL, body BLOB NOT NULL, PRIMARY KEY (number, kind, id));
INSERT INTO record VALUES (0, -1, 0, x'00');

.open a_kind_of_264.catalog
pragma page_size = 512;
pragma journal_mode = wal;
CREATE TABLE record (number INTEGER NOT NULL, kind INTEGER NOT NULL, id INTEGER NOT NULL, body BLOB NOT NULL, PRIMARY KEY (number, kind, id));
INSERT INTO record VALUES (0, 264, 0, x'00000000010000000000000005');

.open a_text_as_the_kind.catalog
pragma page_size = 512;
pragma journal_mode = wal;
CREATE TABLE record (number INTEGER NOT NULL, kind INTEGER NOT NULL, id INTEGER NOT NULL, body BLOB NOT NULL, PRIMARY KEY (number, kind, id));
INSERT INTO record VALUES (0, 'text', 0, x'00');

.open an_id_of_2_32.catalog
pragma page_size = 512;
pragma journal_mode = wal;
CREATE TABLE record (number INTEGER NOT NULL, kind INTEGER NOT NULL, id INTEGER NOT NULL, body BLOB NOT NULL, PRIMARY KEY (number, kind, id));
INSERT INTO record VALUES (0, 6, 4294967296, x'0000000000000006000001000000000000000005');

.open a_text.catalog
pragma page_size = 512;
pragma journal_mode = wal;
CREATE TABLE record (number INTEGER NOT NULL, kind INTEGER NOT NULL, id INTEGER NOT NULL, body BLOB NOT NULL, PRIMARY KEY (number, kind, id));
INSERT INTO record VALUES (0, 8, 0, 'text');

.open a_tag_of_0_that_has_a_letter.catalog
pragma page_size = 512;
pragma journal_mode = wal;
CREATE TABLE record (number INTEGER NOT NULL, kind INTEGER NOT NULL, id INTEGER NOT NULL, body BLOB NOT NULL, PRIMARY KEY (number, kind, id));
INSERT INTO record VALUES (0, 5, 1, x'00020000000100000001000000000000000000000000000000030000000000000003000000020000000010000000ffffffffffffffffffffffffffffffffffffffffffffffffffffffffffffffff01000000000000000000540000000000000032');

.open a_set.catalog
pragma page_size = 512;
pragma journal_mode = wal;
CREATE TABLE record (number INTEGER NOT NULL, kind INTEGER NOT NULL, id INTEGER NOT NULL, body BLOB NOT NULL, PRIMARY KEY (number, kind, id));
INSERT INTO record VALUES (0, 9, 1, x'00000001000000000000000500000000000000010000000101000000000000000000000000000000050000000200000000000000c8ffffffffffffffffffffffffffffffffffffffffffffffffffffffffffffffff01000000000000000001540000000000000032');

.open a_set_of_2_60_parts.catalog
pragma page_size = 512;
pragma journal_mode = wal;
CREATE TABLE record (number INTEGER NOT NULL, kind INTEGER NOT NULL, id INTEGER NOT NULL, body BLOB NOT NULL, PRIMARY KEY (number, kind, id));
INSERT INTO record VALUES (0, 9, 1, x'00000001000000000000000510000000000000000000000101000000000000000000000000000000050000000200000000000000c8ffffffffffffffffffffffffffffffffffffffffffffffffffffffffffffffff01000000000000000001540000000000000032');

.open a_set_with_a_part_of_kind_5.catalog
pragma page_size = 512;
pragma journal_mode = wal;
CREATE TABLE record (number INTEGER NOT NULL, kind INTEGER NOT NULL, id INTEGER NOT NULL, body BLOB NOT NULL, PRIMARY KEY (number, kind, id));
INSERT INTO record VALUES (0, 9, 1, x'00000001000000000000000500000000000000010000000105000000000000000000000000000000050000000200000000000000c8ffffffffffffffffffffffffffffffffffffffffffffffffffffffffffffffff01000000000000000001540000000000000032');

.open a_set_with_a_byte_too_many.catalog
pragma page_size = 512;
pragma journal_mode = wal;
CREATE TABLE record (number INTEGER NOT NULL, kind INTEGER NOT NULL, id INTEGER NOT NULL, body BLOB NOT NULL, PRIMARY KEY (number, kind, id));
INSERT INTO record VALUES (0, 9, 1, x'00000001000000000000000500000000000000010000000101000000000000000000000000000000050000000200000000000000c8ffffffffffffffffffffffffffffffffffffffffffffffffffffffffffffffff0100000000000000000154000000000000003200');

.open a_switch.catalog
pragma page_size = 512;
pragma journal_mode = wal;
CREATE TABLE record (number INTEGER NOT NULL, kind INTEGER NOT NULL, id INTEGER NOT NULL, body BLOB NOT NULL, PRIMARY KEY (number, kind, id));
INSERT INTO record VALUES (0, 10, 1, x'020000000100000000000000040000000002');

.open a_switch_with_a_flag_of_2.catalog
pragma page_size = 512;
pragma journal_mode = wal;
CREATE TABLE record (number INTEGER NOT NULL, kind INTEGER NOT NULL, id INTEGER NOT NULL, body BLOB NOT NULL, PRIMARY KEY (number, kind, id));
INSERT INTO record VALUES (0, 10, 1, x'020000000100000000000000040200000002');

.open a_switch_with_a_byte_too_many.catalog
pragma page_size = 512;
pragma journal_mode = wal;
CREATE TABLE record (number INTEGER NOT NULL, kind INTEGER NOT NULL, id INTEGER NOT NULL, body BLOB NOT NULL, PRIMARY KEY (number, kind, id));
INSERT INTO record VALUES (0, 10, 1, x'02000000010000000000000004000000000200');

.open other_columns.catalog
pragma page_size = 512;
pragma journal_mode = wal;
CREATE TABLE record (number INTEGER, other TEXT);
INSERT INTO record VALUES (0, 'text');
