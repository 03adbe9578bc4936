-- `rm *.db-*; sqlite3 < files.sql` makes the databases of this folder anew. Each has two pages of 512 bytes.

-- the keeper's table, and no row at place 2
.open --new shell.db
PRAGMA page_size = 512;
CREATE TABLE rows(place INTEGER PRIMARY KEY, body BLOB NOT NULL) STRICT;
INSERT INTO rows VALUES(0, CAST('first' AS BLOB)), (1, CAST('second' AS BLOB)), (3, CAST('behind a gap' AS BLOB));

-- a table of another shape
.open --new other-table.db
PRAGMA page_size = 512;
CREATE TABLE rows(place INTEGER PRIMARY KEY, body TEXT);
INSERT INTO rows VALUES(0, 'first');

-- a row of another type in a table of the keeper's shape
.open --new other-row.db
PRAGMA page_size = 512;
CREATE TABLE rows(place INTEGER PRIMARY KEY, body);
INSERT INTO rows VALUES(0, 'text');
PRAGMA writable_schema = ON;
UPDATE sqlite_schema SET sql = 'CREATE TABLE rows(place INTEGER PRIMARY KEY, body BLOB NOT NULL) STRICT';
