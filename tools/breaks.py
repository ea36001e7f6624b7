"""Changes of the rows and tables of a store by sqlite3, of which most leave none that is sound, and what `doctor` has to name then. What
imports this is run by `python3 -B`, so that nothing is left in tools/."""

import sqlite3

LAST = 2**53 - 1


def edited(store, *texts):
    """Runs texts of SQL over a store, by sqlite3."""
    base = sqlite3.connect(store)
    base.execute("PRAGMA foreign_keys = 0")
    for text in texts:
        base.execute(text)
    base.commit()
    base.close()
    return store


# Changes of a row at random, of which some leave a store sound: a table, its number or a key, and what is set.
SET = {
    "node": ["path = path || '/'", "path = '/books/other'", "parent = 1", "parent = NULL", "parent = id", "kind = kind + 1", "kind = 5", "owner = NULL",
             "owner = '/books'", "owner = '/people/adm'", "label = 'x'", "label = CAST(x'ff' AS TEXT)", "label = hex(zeroblob(129))", "text = NULL",
             "text = 'x'", "number = 0", "number = 1", "number = -1", "number = number + 1"],
    "ace2": ["protected = 1 - protected", "protected = 2", "place = place + 7", "place = -1", "form = 1", "form = 6", "principal = '/people/adm'",
             "principal = NULL", "principal = '/books'", "invert = 1", "invert = 2", "deny = 1 - deny", "deny = -1", "mask = 1", "mask = 0", "mask = 512", "node = 1"],
    "member": ["grp = '/people/adm'", "grp = '/books'", "member = '/people/adm'", "member = '/groups'"],
    "gone": ["book = 1", "name = 'x'", "name = 'a.vcf'", "name = '.x'", "number = 0", "number = number + 1", "number = 1"],
    "meta": ["version = 3", "epoch = -1", "epoch = 0", "epoch = 9007199254740991", "epoch = 9007199254740992"],
}

NUMBERS = "WITH RECURSIVE generate (value) AS (SELECT 0 UNION ALL SELECT value + 1 FROM generate WHERE value < {}) "


def at(path):
    """The number of the row at a path, in SQL."""
    return f"(SELECT id FROM node WHERE path = '{path}')"


def added(path, kind, **keys):
    """A row of `node` that is added, in SQL."""
    told = {"owner": "NULL", "label": "''", "text": "NULL", "number": "0", **keys}
    above = path.rpartition("/")[0] or "/"
    return f"INSERT INTO node (path, parent, kind, owner, label, text, number) VALUES ('{path}', {at(above)}, {kind}, {told['owner']}, {told['label']}, {told['text']}, {told['number']})"


def numbered(path, keys):
    """An edit of the row at a path, in SQL."""
    return f"UPDATE node SET {keys} WHERE path = '{path}'"


def entry_of(path, keys, protected=0):
    """An edit of the first entry of a list, in SQL."""
    return f"UPDATE ace2 SET {keys} WHERE node = {at(path)} AND protected = {protected} AND place = 0"


# What is broken in the store of HAND, the texts of SQL that break it, and what the line has: the table, what names the row, and a word of
# the rule. After @ stands the path of the resource whose number it has. Of numbers within a book, of limits and of a schema the table alone is told, or that.
BROKEN = [
    ("a second row of meta", ["INSERT INTO meta VALUES (2, 8)"], ["meta"]),
    ("no row of meta", ["DELETE FROM meta"], ["meta"]),
    ("an epoch below 0", ["UPDATE meta SET epoch = -1"], ["meta"]),
    ("an epoch past the last", [f"UPDATE meta SET epoch = {LAST + 1}"], ["meta"]),
    ("an owner that is no principal", [numbered("/books/law", "owner = '/books'")], ["node", "/books/law", "@/books/law", "owner"]),
    ("an owner that is a book", [numbered("/books/sales/c.vcf", "owner = '/books/law'")], ["node", "/books/sales/c.vcf", "@/books/sales/c.vcf", "owner"]),
    ("a parent of another number", [numbered("/books/law", f"parent = {at('/groups')}")], ["node", "/books/law", "@/books/law", "parent"]),
    ("a card in another book", [numbered("/books/sales/c.vcf", f"parent = {at('/books/law')}")], ["node", "/books/sales/c.vcf", "@/books/sales/c.vcf", "parent"]),
    ("no parent", [numbered("/books/law", "parent = NULL")], ["node", "/books/law", "@/books/law", "parent"]),
    ("a root with a parent", [numbered("/", f"parent = {at('/people')}")], ["node", "(/)", "parent"]),
    ("a path that is none", [numbered("/people/bob", "path = '/people/bob/'"), "DELETE FROM member", "DELETE FROM reach", "UPDATE node SET owner = NULL"],
     ["node", "/people/bob/", "path"]),
    ("a path that begins otherwise", [added("/booz", 1)], ["node", "/booz", "path"]),
    ("a name with a dot", [added("/people/.bob", 2)], ["node", "/people/.bob", "path"]),
    ("a path that is no UTF-8", [added("/people/joe", 2), numbered("/people/joe", "path = CAST(x'2f70656f706c652fff' AS TEXT)")], ["node", "path"]),
    ("another kind", [numbered("/books/law", "kind = 3")], ["node", "/books/law", "@/books/law", "kind"]),
    ("no kind", [numbered("/books/law", "kind = 9")], ["node", "/books/law", "@/books/law", "kind"]),
    ("a label too long", [numbered("/books/law", "label = hex(zeroblob(129))")], ["node", "/books/law", "@/books/law", "label"]),
    ("a label that is no UTF-8", [numbered("/people/ann", "label = CAST(x'ff' AS TEXT)")], ["node", "/people/ann", "@/people/ann", "label"]),
    ("a number below 0", [numbered("/books/law", "number = -1")], ["node", "/books/law", "@/books/law", "number"]),
    ("a number past the last", [numbered("/books/law", f"number = {LAST + 1}")], ["node", "/books/law", "@/books/law", "number"]),
    ("a person with a number", [numbered("/people/ann", "number = 1")], ["node", "/people/ann", "@/people/ann", "number"]),
    ("a card with number 0", [numbered("/books/sales/c.vcf", "number = 0")], ["node", "number"]),
    ("a number past that of the book", [numbered("/books/sales/c.vcf", "number = 10")], ["node", "number"]),
    ("two cards with one number", [numbered("/books/sales/c.vcf", "number = 9")], ["node", "number"]),
    ("a card with the number of a removed name", [numbered("/books/sales/c.vcf", "number = 2")], ["node", "number"]),
    ("a text that is no UTF-8", [numbered("/books/sales/c.vcf", "text = CAST(x'ff' AS TEXT)")], ["node", "/books/sales/c.vcf", "@/books/sales/c.vcf", "text"]),
    ("a text too long", [numbered("/books/sales/c.vcf", "text = hex(zeroblob(32769))")], ["node", "/books/sales/c.vcf", "@/books/sales/c.vcf", "text"]),
    ("a card without a text", [numbered("/books/sales/c.vcf", "text = NULL")], ["node", "/books/sales/c.vcf", "@/books/sales/c.vcf", "text"]),
    ("a book with a text", [numbered("/books/law", "text = 'x'")], ["node", "/books/law", "@/books/law", "text"]),
    ("an entry of no list", [entry_of("/books/sales", "protected = 2")], ["ace2", "@/books/sales"]),
    ("a place below 0", [entry_of("/books/sales", "place = -1")], ["ace2", "@/books/sales"]),
    ("no form", [entry_of("/books/sales", "form = 6")], ["ace2", "@/books/sales"]),
    ("a word with a principal", [entry_of("/books/sales", "principal = '/people/ann'")], ["ace2", "@/books/sales"]),
    ("a principal without a form", [entry_of("/", "principal = NULL", 1)], ["ace2", "@/"]),
    ("an entry for a book", [entry_of("/", "principal = '/books/law'", 1)], ["ace2", "@/", "principal"]),
    ("no inversion", [entry_of("/books/sales", "invert = 2")], ["ace2", "@/books/sales"]),
    ("no deny", [entry_of("/books/sales", "deny = -1")], ["ace2", "@/books/sales"]),
    ("no privileges", [entry_of("/books/sales", "mask = 512")], ["ace2", "@/books/sales"]),
    ("a protected entry of a card", [entry_of("/books/sales/c.vcf", "protected = 1")], ["ace2", "@/books/sales/c.vcf"]),
    ("65 entries", [NUMBERS.format(64) + f"INSERT INTO ace2 SELECT {at('/people')}, 0, value, 1, NULL, 0, 0, 1 FROM generate"], ["ace2", "more"]),
    ("a member that is no principal", ["UPDATE member SET member = '/books/law' WHERE member = '/people/bob'"], ["member", "/groups/staff", "/books/law"]),
    ("a group that is a person", ["UPDATE member SET grp = '/people/bob' WHERE grp = '/groups/law' AND member = '/people/ann'"],
     ["member", "/people/bob", "/people/ann"]),
    ("1,001 members", [NUMBERS.format(1_000) + f"INSERT INTO node (path, parent, kind, label, number) SELECT '/people/p' || value, {at('/people')}, 2, '', 0 FROM generate",
                       "INSERT INTO member SELECT '/groups/law', path FROM node WHERE path LIKE '/people/p%'"], ["member", "more"]),
    ("a removed name that stands as a card", ["UPDATE gone SET name = 'c.vcf' WHERE name = 'a'"], ["gone", "@/books/sales", "c.vcf"]),
    ("a removed name that is none", ["UPDATE gone SET name = '.a' WHERE name = 'a'"], ["gone", "@/books/sales", ".a"]),
    ("a removed name of a person", [f"UPDATE gone SET book = {at('/people/ann')} WHERE name = 'a'"], ["gone", "@/people/ann", "a"]),
    ("a removed name with number 0", ["UPDATE gone SET number = 0 WHERE name = 'a'"], ["gone", "number"]),
    ("a removed name past the number of its book", ["UPDATE gone SET number = 10 WHERE name = 'a'"], ["gone", "number"]),
    ("two removed names with one number", ["UPDATE gone SET number = 2 WHERE name = 'a'"], ["gone", "number"]),
    ("1,001 books", [NUMBERS.format(998) + f"INSERT INTO node (path, parent, kind, label, number) SELECT '/books/b' || value, {at('/books')}, 4, '', 0 FROM generate"],
     ["node", "more"]),
    ("a table that is missing", ["DROP TABLE gone"], ["schema"]),
    ("two tables that are missing", ["DROP TABLE member", "DROP TABLE gone"], ["schema"]),
    ("a table that is not ours", ["CREATE TABLE colours (name TEXT)"], ["schema"]),
    ("a view", ["CREATE VIEW cards AS SELECT path FROM node WHERE kind = 5"], ["schema"]),
    ("an index that is not ours", ["CREATE INDEX node_label ON node (label)"], ["schema"]),
    ("statistics", ["ANALYZE"], ["schema"]),
    ("a column more", ["ALTER TABLE node ADD COLUMN colour TEXT"], ["schema"]),
    ("a table of another name", ["ALTER TABLE gone RENAME TO removed"], []),
    ("entries of version 1", ["INSERT INTO ace SELECT * FROM ace2"], ["ace"]),
    ("an owner who is not there", [numbered("/books/law", "owner = '/people/zoe'")], []),
    ("a parent that is not there", [numbered("/books/law", "parent = 999")], []),
    ("an entry of a resource that is not there", [entry_of("/books/sales", "node = 999")], []),
    ("an entry for somebody who is not there", [entry_of("/", "principal = '/people/zoe'", 1)], []),
    ("a member who is not there", ["UPDATE member SET member = '/people/zoe' WHERE member = '/people/bob'"], []),
    ("a group that is not there", ["UPDATE member SET grp = '/groups/none' WHERE grp = '/groups/law' AND member = '/people/ann'"], []),
    ("a removed name of a book that is not there", ["UPDATE gone SET book = 999 WHERE name = 'a'"], []),
    ("a trigger", ["CREATE TRIGGER kept AFTER DELETE ON gone BEGIN SELECT 1; END"], []),
    ("a partial index", ["CREATE INDEX node_text ON node (label) WHERE kind = 5"], []),
    ("a home that is missing", ["DELETE FROM node WHERE path LIKE '/groups%'", "DELETE FROM member", "DELETE FROM reach", "UPDATE node SET owner = NULL", "DELETE FROM ace2"],
     ["node", "/groups"]),
    ("another version", ["UPDATE meta SET version = 3"], ["other-version"]),
]
# The same of what leaves a store sound.
SOUND = [
    ("an index that is missing", ["DROP INDEX node_owner"]),
    ("a reach that is missing", ["DROP TABLE reach"]),
    ("a reach with other rows", ["DELETE FROM reach"]),
    ("a place that is not next", [entry_of("/books/sales", "place = 7")]),
    ("the most that a label may have", [numbered("/books/law", "label = hex(zeroblob(128))")]),
    ("64 entries", [NUMBERS.format(63) + f"INSERT INTO ace2 SELECT {at('/people')}, 0, value, 1, NULL, 0, 0, 1 FROM generate"]),
    ("pages that are free", ["CREATE TABLE filled (text TEXT)", NUMBERS.format(300) + "INSERT INTO filled SELECT hex(zeroblob(200)) FROM generate",
                             "DROP TABLE filled"]),
    ("no free page", ["VACUUM"]),
]
