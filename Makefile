# For people who install. `make` has the kit prove and build the library's archive and the two programs, `make check` is the gate,
# `make install PREFIX=` copies what others build on to where they look for it, and `make uninstall PREFIX=` takes it away.
# First what may be set, then building, then installing.

PREFIX ?= /usr/local
# One word, since a blank in it would end a word of what pkg-config says.
ifneq ($(words $(PREFIX)) $(filter /%,$(PREFIX)),1 $(PREFIX))
$(error PREFIX must be one word that begins with /: the pkg-config file names it)
endif
# For those who make packages: DESTDIR stands before every path that is written to, and in no file.
to = $(DESTDIR)$(PREFIX)
# What is installed. Another file that is named here is taken as it is.
ARCHIVE = crates/tarnsatchel/out/libtarnsatchel.a
PROGRAM = crates/list/out/list
TREE = crates/tree/out/tree
# The version stands where cargo wants it, and in no second place by hand.
VERSION := $(shell sed -n 's/^version = "\(.*\)"$$/\1/p' bindings/rust/Cargo.toml)

all: $(ARCHIVE) $(PROGRAM) $(TREE)

# Folders are among the sources: a file that is taken away makes its folder newer. No crate's own folder is, and no out/: rt writes there.
SOURCES := crates.txt $(shell find crates -regex 'crates/[^/]*/out' -prune -o ! -regex 'crates/[^/]*' -print)
# All of them prove the same crates, into the same folders out/.
.NOTPARALLEL:

# What is built is dated from before the proof, so that a source changed meanwhile is newer; and dated anew where rt found that a
# newer source says the same, and wrote nothing.
crates/tarnsatchel/out/libtarnsatchel.a: $(SOURCES)
	mkdir -p target && touch target/begun
	cd crates/tarnsatchel && rt lib
	touch -r target/begun $@

# rt builds a program to run it: it is run on no input, and what it then prints is nobody's.
crates/list/out/list crates/tree/out/tree: $(SOURCES)
	mkdir -p target && touch target/begun
	cd crates/$(@F) && rt run </dev/null >/dev/null
	touch -r target/begun $@

check:
	bash .ci/run

# The Fortran module as its source, since a .mod is of one compiler and version; beside the header, where pkg-config's -I finds it.
# The programs under the library's name, since `list` and `tree` are names that hosts have already.
install: all
	install -d '$(to)/bin' '$(to)/include' '$(to)/lib/pkgconfig'
	install -m 755 '$(PROGRAM)' '$(to)/bin/tarnsatchel-list'
	install -m 755 '$(TREE)' '$(to)/bin/tarnsatchel-tree'
	install -m 644 include/tarnsatchel.h bindings/fortran/tarnsatchel.f90 '$(to)/include'
	install -m 644 '$(ARCHIVE)' '$(to)/lib/libtarnsatchel.a'
	{ echo 'prefix=$(PREFIX)' && sed 's/@VERSION@/$(VERSION)/' tarnsatchel.pc.in; } >'$(to)/lib/pkgconfig/tarnsatchel.pc'
	chmod 644 '$(to)/lib/pkgconfig/tarnsatchel.pc'

# The folders stay: they are not ours alone.
uninstall:
	rm -f '$(to)/bin/tarnsatchel-list' '$(to)/bin/tarnsatchel-tree' '$(to)/include/tarnsatchel.h' \
		'$(to)/include/tarnsatchel.f90' '$(to)/lib/libtarnsatchel.a' '$(to)/lib/pkgconfig/tarnsatchel.pc'

# All that rt has kept goes with it.
clean:
	rm -rf target crates/*/out

.PHONY: all check install uninstall clean
