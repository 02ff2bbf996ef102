# What is made of the proved crates, and where it is put for others.
#
#   make                        the four archives and the program boxsheet, proved by `rt` where they are missing or a source of theirs was
#                               changed, and the shared library
#   make shared                 the shared library alone, target/lib/libsatmegwo.so: the calls of all four archives
#   make install PREFIX=/usr    headers, archives, shared library, boxsheet, the file satmegwo.pc for pkg-config, the manual pages, the completion of bash
#                               and the licence (/usr/local if nothing is said)
#   make stale                  says which of the archives and boxsheet are older than a source of theirs, and makes nothing
#
# `rt` leaves what it makes of a crate in the crate's own folder out/, which .ci/build.py asks it for. The archive of the crate NAME_c, the exports of the
# library NAME, is libNAME.a here.
#
# All of it is for Linux on x86-64.
SHELL = bash
.SHELLFLAGS = -o pipefail -ec
CC = gcc
PREFIX = /usr/local
DESTDIR =

LIBRARIES = satmegwo satmegwo_parts satmegwo_design satmegwo_server
ARCHIVES = $(LIBRARIES:%=target/staticlib/lib%.a)
HEADERS = $(LIBRARIES:%=include/%.h)
SHARED = target/lib/libsatmegwo.so
PROGRAM = target/bin/boxsheet
MANUAL = docs/man/boxsheet.1 docs/man/satmegwo.1

# The version stands in the header.
number = $(shell sed -n 's/^.define SATMEGWO_VERSION_$(1) //p' include/satmegwo.h)
MAJOR := $(call number,MAJOR)
VERSION := $(MAJOR).$(call number,MINOR).$(call number,PATCH)

all: $(ARCHIVES) $(SHARED) $(PROGRAM)

shared: $(SHARED)

# The crates that a crate is made of: itself and all that it stands on. In crates.txt a crate comes after those that it stands on.
crates_of = $(sort $(shell awk -F: '/^[a-z]/ { split($$1, name, " "); all = name[1]; n = split($$2, on, " "); for (k = 1; k <= n; k++) all = all " " of[on[k]]; \
    of[name[1]] = all } END { print of["$(1)"] }' crates.txt))
# Where their sources lie, by the names of folders and files that `rt` knows.
folders_of = crates.txt $(foreach crate,$(call crates_of,$(1)),$(wildcard $(addprefix crates/$(crate)/,src specs proofs stdin stdout args status data)))
sources_of = $(shell find $(call folders_of,$(1)) -type f)
$(foreach library,$(LIBRARIES),$(eval target/staticlib/lib$(library).a: $(call sources_of,$(library)_c)))
$(PROGRAM): $(call sources_of,boxsheet)

# Makes $@ of the crate $(1). `rt` proves what it has not proved yet whenever it is called, so it is called only where the sums of the
# sources and of $@ are not those that were kept when it was last made: a source that was only touched costs no proof. Where a source is changed
# while the proof runs, $@ is dated back, so that the next run makes it again.
define make_of
@sums() { find $(call folders_of,$(1)) -type f | LC_ALL=C sort | xargs sha256sum; }; before=$$(sums); \
if { echo "$$before"; sha256sum $@; } 2> /dev/null | cmp -s - $@.sums; then touch $@; exit; fi; \
echo 'crates/$(1) to $@'; python3 -B .ci/build.py $(1) $@; touch $@; \
[ "$$(sums)" = "$$before" ] || { touch -d 2001-01-01 $@; echo 'a source of $@ was changed meanwhile: run make again'; exit 1; }; \
{ echo "$$before"; sha256sum $@; } > $@.sums
endef
$(ARCHIVES): target/staticlib/lib%.a:
	$(call make_of,$*_c)

$(PROGRAM):
	$(call make_of,boxsheet)

# Of what is not there nothing is said.
older = if [ -e $(1) ]; then find $(call folders_of,$(2)) -type f -newer $(1) -print -quit | sed 's|.*|$(1) is older than &: run make|'; fi
stale:
	@$(foreach library,$(LIBRARIES),$(call older,target/staticlib/lib$(library).a,$(library)_c); )$(call older,$(PROGRAM),boxsheet)

# Whole archives, of which the calls alone are exported. The second name is the same file and no link to it: `rt ci` refuses links.
$(SHARED): $(ARCHIVES) Makefile
	mkdir -p $(@D)
	$(CC) -shared -o $@ -Wl,-soname,libsatmegwo.so.$(MAJOR) -Wl,--version-script=<(echo '{ global: satmegwo_*; local: *; };') \
	    -Wl,--whole-archive $(ARCHIVES) -Wl,--no-whole-archive -Wl,-z,defs,-z,relro,-z,now
	ln -f $@ target/lib/libsatmegwo.so.$(MAJOR)

define PKG_CONFIG
prefix=$(abspath $(PREFIX))
includedir=$${prefix}/include
libdir=$${prefix}/lib

Name: satmegwo
Description: A proved analyser of the substitution boxes of ciphers
Version: $(VERSION)
Cflags: -I$${includedir}
Libs: -L$${libdir} -lsatmegwo
Libs.private: -lsatmegwo_parts -lsatmegwo_design -lsatmegwo_server
endef
export PKG_CONFIG

TO = $(DESTDIR)$(PREFIX)
install: all
	install -d $(TO)/include $(TO)/lib/pkgconfig $(TO)/bin
	install -m 644 $(HEADERS) $(TO)/include
	install -m 644 $(ARCHIVES) $(TO)/lib
	install -m 755 $(SHARED) $(TO)/lib/libsatmegwo.so.$(VERSION)
	ln -sf libsatmegwo.so.$(VERSION) $(TO)/lib/libsatmegwo.so.$(MAJOR)
	ln -sf libsatmegwo.so.$(MAJOR) $(TO)/lib/libsatmegwo.so
	install -m 755 $(PROGRAM) $(TO)/bin
	echo "$$PKG_CONFIG" > $(TO)/lib/pkgconfig/satmegwo.pc
	install -d $(TO)/share/man/man1 $(TO)/share/bash-completion/completions $(TO)/share/doc/satmegwo
	install -m 644 $(MANUAL) $(TO)/share/man/man1
	install -m 644 python/completion.bash $(TO)/share/bash-completion/completions/satmegwo
	install -m 644 LICENSE $(TO)/share/doc/satmegwo

# Two runs of `rt` would prove the same crates twice.
.NOTPARALLEL:
.PHONY: all shared install stale
