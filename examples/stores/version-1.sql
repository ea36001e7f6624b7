-- A store of version 1 that has adopted examples/policies/two-books.toml: the tables as version 1 made them, and their rows.
-- The masks are of the eight privileges of version 1. tools/check-streams makes it, and migrates it.
CREATE TABLE node (id INTEGER PRIMARY KEY, path TEXT NOT NULL UNIQUE, parent INTEGER REFERENCES node ON DELETE CASCADE, kind INTEGER NOT NULL, owner TEXT REFERENCES node (path), label TEXT NOT NULL, text TEXT, number INTEGER NOT NULL) STRICT;
CREATE TABLE ace (node INTEGER NOT NULL REFERENCES node ON DELETE CASCADE, protected INTEGER NOT NULL, place INTEGER NOT NULL, form INTEGER NOT NULL, principal TEXT REFERENCES node (path), invert INTEGER NOT NULL, deny INTEGER NOT NULL, mask INTEGER NOT NULL, PRIMARY KEY (node, protected, place)) STRICT;
CREATE TABLE member (grp TEXT NOT NULL REFERENCES node (path), member TEXT NOT NULL REFERENCES node (path), PRIMARY KEY (grp, member)) STRICT;
CREATE TABLE gone (book INTEGER NOT NULL REFERENCES node ON DELETE CASCADE, name TEXT NOT NULL, number INTEGER NOT NULL, PRIMARY KEY (book, name)) STRICT;
CREATE TABLE meta (version INTEGER NOT NULL, epoch INTEGER NOT NULL) STRICT;
CREATE INDEX node_parent ON node (parent, number);
CREATE INDEX node_owner ON node (owner);
CREATE INDEX ace_principal ON ace (principal);
CREATE INDEX member_member ON member (member);
INSERT INTO meta VALUES (1, 1);
INSERT INTO node VALUES (1, '/', NULL, 0, NULL, '', NULL, 0), (2, '/people', 1, 1, NULL, '', NULL, 0), (3, '/groups', 1, 1, NULL, '', NULL, 0), (4, '/books', 1, 1, NULL, '', NULL, 0);
INSERT INTO node VALUES (5, '/people/ann', 2, 2, NULL, '', NULL, 0), (6, '/people/bob', 2, 2, NULL, '', NULL, 0), (7, '/people/gus', 2, 2, NULL, '', NULL, 0), (8, '/groups/staff', 3, 3, NULL, '', NULL, 0);
INSERT INTO node VALUES (9, '/books/sales', 4, 4, '/people/ann', 'Sales', NULL, 0), (10, '/books/law', 4, 4, '/people/ann', '', NULL, 0);
INSERT INTO member VALUES ('/groups/staff', '/people/ann'), ('/groups/staff', '/people/bob');
INSERT INTO ace VALUES (9, 1, 0, 0, '/people/ann', 0, 0, 255), (9, 0, 0, 0, '/groups/staff', 0, 0, 9), (10, 1, 0, 4, NULL, 0, 0, 255), (10, 0, 0, 0, '/people/bob', 0, 0, 17), (3, 1, 0, 0, '/people/ann', 0, 0, 5);
