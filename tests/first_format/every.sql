-- The tables and indexes of the first format, in its order; the carriers, routing numbers and code that every file has.
-- Each text of a table is one line, as a file has it.
BEGIN;
CREATE TABLE carrier (spid TEXT NOT NULL PRIMARY KEY) STRICT;
CREATE TABLE lrn (lrn INTEGER PRIMARY KEY, spid TEXT NOT NULL) STRICT;
CREATE TABLE code (code INTEGER PRIMARY KEY, spid TEXT NOT NULL) STRICT;
CREATE TABLE block (block INTEGER PRIMARY KEY, donor TEXT NOT NULL, last INTEGER) STRICT;
CREATE TABLE version (id INTEGER PRIMARY KEY, subject INTEGER NOT NULL, old TEXT NOT NULL, new TEXT NOT NULL, due INTEGER NOT NULL, lrn INTEGER, cic INTEGER, old_at INTEGER, new_at INTEGER, status TEXT NOT NULL, sends TEXT NOT NULL, since INTEGER NOT NULL, attempt INTEGER NOT NULL, release INTEGER, spent INTEGER NOT NULL, protective INTEGER NOT NULL, cancelled_by TEXT, deadline INTEGER, holds INTEGER NOT NULL UNIQUE, opens INTEGER NOT NULL UNIQUE) STRICT;
CREATE TABLE broadcast (id INTEGER NOT NULL, attempt INTEGER NOT NULL, minute INTEGER NOT NULL, subject INTEGER NOT NULL, action TEXT NOT NULL, lrn INTEGER, cic INTEGER, open INTEGER NOT NULL, any INTEGER NOT NULL, PRIMARY KEY (id, attempt)) STRICT;
CREATE TABLE wait (spid TEXT NOT NULL, minute INTEGER NOT NULL, id INTEGER NOT NULL, attempt INTEGER NOT NULL, subject INTEGER NOT NULL, PRIMARY KEY (spid, minute, id, attempt)) STRICT;
CREATE TABLE clock (one INTEGER PRIMARY KEY, now INTEGER NOT NULL, next_id INTEGER NOT NULL, initial_concurrence INTEGER NOT NULL, final_concurrence INTEGER NOT NULL, conflict_restriction INTEGER NOT NULL, conflict_resolution INTEGER NOT NULL, conflict_expiration INTEGER NOT NULL, cancellation_initial INTEGER NOT NULL, cancellation_final INTEGER NOT NULL, pending_retention INTEGER NOT NULL, broadcast INTEGER NOT NULL) STRICT;
CREATE INDEX version_deadline ON version (deadline);
CREATE INDEX wait_subject ON wait (subject, spid);
CREATE INDEX wait_broadcast ON wait (id, attempt);
INSERT INTO carrier VALUES ('AAAA');
INSERT INTO carrier VALUES ('BBBB');
INSERT INTO carrier VALUES ('CCCC');
INSERT INTO lrn VALUES (2025330000, 'BBBB');
INSERT INTO lrn VALUES (2025440000, 'AAAA');
INSERT INTO lrn VALUES (2025550000, 'CCCC');
INSERT INTO code VALUES (202533, 'BBBB');
COMMIT;
