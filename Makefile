# Shared contact books.
#
#   make try     builds the program without any proof, build/try/book_desk, and runs the tour of the README with it
#   make build   proves the program and links it: build/book_desk
#   make install copies the proved program, the gateway, manual pages, units and examples (DESTDIR, PREFIX)
#   make package makes packages of Debian 12 of that program, or of that of make try: build/packages
#   make try-package looks at the units, makes the packages, installs them in a new root, uses them there, and removes them (root,
#                debootstrap)
#   make demo    builds it, and runs it on texts and cards of examples/, and the tour
#   make tour    builds it, and runs all that the documents show, and compares
#   make streams builds it, and compares its replies to the streams of examples/ byte for byte, and its decisions to the
#                answers of examples/conformance
#   make test    the gate: every proof from nothing, the edits that must fail, the tests, the programs, the streams
#   make quick   the tests of the crates of examples, without any proof
#   make wrong   tries the wrong bodies that are too dear for each run of the gate: each must be refused
#   make turned  turns meanings of the code, and sees that the example that guards each fails: no proof is tried
#   make faults  makes stores, memory and disks fail at each point at which they can, and compares what is answered and kept
#   make bench   builds the program, and prints the processor time that it takes for many workloads, and the instructions
#                of requests at two sizes of what they should not rest on
#   make figures builds the program, and prints what its requests over a store in a file take, what check of a policy of 1 MB
#                takes, and what load, backup, compact, restore and doctor take beside sqlite3; asks for what takes most memory
#                under an address space of 512 MB; what clients wait for while an administrator asks the control; and what edits
#                of many clients take, also where syncs take longer
#   make many    builds the program, and serves 10,000 connections, 100 at once, and each worked stream cut at each byte, four
#                at once; looks for one order of the replies to requests that overlap; sees that rounds of requests are kept by
#                one commit or not at all, also where it is killed, syncs fail or memory is refused; compares what a store keeps of
#                chains of members with them, after 10,000 changes; ends it by TERM at 100 moments; loses the file of a store
#                beside its log; makes syncs fail; asks it through nginx, at a Unix socket, and at its control; prints what an
#                honest client waits for beside clients that take places or turns
#   make loads   builds the program, and compares what load, compact, backup and restore make of random stores, also where they
#                are killed, and what doctor tells
#   make logs    builds the program, and compares each line of its log with what was asked and answered, also where it is
#                killed, the disk is full, or the log is renamed
#   make clients tests the gateway with clients as they are: vdirsyncer, khard, curl, nginx, Chromium (gateway/packages.txt)
#   make first-hour plays the first hour of the README from a clean clone, with the program of make try, and compares
#   make gateway-demo runs the server and the gateway with two persons, for at most an hour
#   make clean   removes what the others made
#
# They need rt, the command of the Rattle toolchain: on PATH, or in the kit whose folder RATTLE_KIT names; and python3, which
# rt needs too.

.PHONY: try build install demo tour streams test quick wrong turned faults bench figures many loads logs clients gateway-demo \
	package try-package first-hour clean

try:
	@tools/try
	@tools/check-documents --show build/try/book_desk

build:
	@tools/build

install:
	@tools/install

package:
	@tools/package

try-package: package
	@tools/check-units
	@tools/try-package

demo: build
	@tools/demo build/book_desk

tour: build
	@tools/check-documents build/book_desk

streams: build
	@tools/check-streams build/book_desk
	@tools/check-conformance build/book_desk

test:
	@tools/gate

quick:
	@tools/quick

wrong:
	@tools/try-wrong-bodies

turned:
	@tools/check-examples

faults:
	@tools/try-faults

bench: build
	@tools/measure-time build/book_desk
	@tools/measure-instructions build/book_desk

figures: build
	@tools/measure-stores build/book_desk
	@tools/check-policies --figures build/book_desk
	@tools/measure-loads build/book_desk
	@tools/check-memory build/book_desk
	@tools/measure-control build/book_desk
	@tools/measure-commits build/book_desk

many: build
	@tools/check-many build/book_desk
	@tools/check-order build/book_desk
	@tools/check-rounds build/book_desk
	@tools/check-reach build/book_desk
	@tools/check-cuts build/book_desk
	@tools/check-kept build/book_desk
	@tools/check-lost build/book_desk
	@tools/check-unsynced build/book_desk
	@tools/check-proxied build/book_desk
	@tools/check-sockets build/book_desk
	@tools/check-control build/book_desk
	@tools/measure-crowds build/book_desk

loads: build
	@tools/check-loads build/book_desk

logs: build
	@tools/check-logs build/book_desk

clients:
	@gateway/clients

gateway-demo:
	@gateway/demo

first-hour:
	@tools/try-first-hour

clean:
	rm -rf build crates/*/out
