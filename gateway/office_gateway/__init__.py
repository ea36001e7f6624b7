"""The office's gateway: HTTPS, passwords, CardDAV (RFC 6352) and a web page in front of the server
of contact books.

The gateway tells the server who asks. The server decides every right. Modules, in the order in
which a reader wants them:

config     the settings, from one file in TOML
paths      names and paths, as the server has them, and as CardDAV clients see them
client_names names that clients choose for cards, as names of the server
refusals   what is refused: status, name, cause, as JSON, as DAV:error, and in words
calls      a request that was read whole, and its reply
flight     replies of the server on their way to clients, bounded together
server     the client of the server
connections clients' connections: how many, and how long they may be silent
guesses    sign-ins that fail, slowed down
kept       small files of the gateway's own
accounts   passwords of devices, and those that persons set themselves
passwords  names and passwords from an htpasswd file
sessions   who signed in at the page
locks      one lock for each book
turns      long work in slices, one at a time
offers     books that persons may use although the server does not list them
texts      the texts of cards, each kept once; entity tags
copies     what a caller may read of a book, kept up to date by sync tokens
told       what each person was last told of a book, by sync token
vcard      the lines of vCards
dates      dates of vCard 3.0 and 4.0
convert    vCard 3.0 to 4.0 and back
old        vCard 2.1 to 3.0
mending    faults of cards that clients' libraries mend
photos     photos that are made smaller
uids       UIDs of cards that lack one
taking     a card that a client sends, as it is given to the server
queries    the filters of addressbook-query
davxml     XML that is read and written
properties the properties that CardDAV clients ask for
conditions what fields of a request say of a card: entity tags, versions, types
resources  what stands at paths, as the server tells it to a caller
answers    answers in XML of many resources, bounded, in pieces
reading    PROPFIND, GET and HEAD
syncing    what a client lacks that has a sync token
reports    the reports of CardDAV
writing    the methods that edit
dav        from a method of CardDAV to one of these
health     what whoever watches the office is told
rows       what lists and searches at the page show of cards
page       what the web page asks for
app        from a request to one of these
gate       the gateway as the commands ask it
faults     faults of cards that are seen without the server
imports    a file of many cards into a book
preview    what an import at the page would do
exports    a book into one file

What a request of CardDAV costs the server: a GET one GET; a PUT or DELETE itself, and one GET where
it has a condition; a PROPFIND of the home one request for each book and one for their names; a
sync-collection one report for each 200 to 1,000 changes. A PROPFIND of depth 1, a multiget and a
query of a book ask for the changes since the last one. Once after each change of access they read
the whole book, but a multiget of at most 20 cards these alone.
"""
