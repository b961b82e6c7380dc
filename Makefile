# make test: everything that decides whether a change may land. make demo: a year's calls up to the session after a
# quarterly expiry. make bench: every call of the C interface against an independent implementation.
# make program: the console program, build/sindhopul. make lib: the library, static and shared, in build/lib. make archives: what
# the tests link, in build/archives.
# make install PREFIX=..: both, with header, pkg-config file and Warsaw's calendar. make compare-calendar: Warsaw's days
# beside QuantLib's.
.PHONY: test demo bench program lib archives install compare-calendar

PREFIX = /usr/local
VERSION = 0.2.0

test:
	@bash tests/run

demo:
	@bash demo/run

bench:
	@bash bench/run

compare-calendar:
	@calendars/compare

program: build/sindhopul

lib: build/lib/libsindhopul.a build/lib/libsindhopul.so

archives: build/archives/libcapi.a build/archives/liblookup.a

# What the archives and the program are made of.
SOURCES = crates.txt $(shell find crates -path '*/out' -prune -o \( -name '*.rt' -o -name '*.antt' \) -print)

# What is built is proved first, so it is built only when something changed. The lookups' archive is the tests'.
build/archives/libcapi.a: $(SOURCES)
	tools/build capi $@

build/archives/liblookup.a: $(SOURCES)
	tools/build lookup_c $@

build/sindhopul.o: $(SOURCES)
	tools/build sindhopul $@

# The C functions behind the files are the kit's.
KIT = "$$(dirname "$$(rt doc)")"

build/sindhopul: build/sindhopul.o program/limits.c
	$(CC) -O2 -Wall -Wextra -o $@ $^ $(KIT)/c/libos_c.a $(KIT)/c/liblibc_c.a

build/lib/libsindhopul.a: build/archives/libcapi.a
	@mkdir -p build/lib
	cp $< $@

# Nothing in the archive refers to its functions: without --whole-archive the shared object would be empty.
build/lib/libsindhopul.so.1: build/archives/libcapi.a
	@mkdir -p build/lib
	$(CC) -shared -Wl,-soname,libsindhopul.so.1 -Wl,-z,defs -Wl,-z,text \
		-Wl,--whole-archive $< -Wl,--no-whole-archive -o $@

# A copy: rt ci refuses links.
build/lib/libsindhopul.so: build/lib/libsindhopul.so.1
	cp $< $@

# The calendar that the installed program starts with.
build/warsaw.calendar: build/sindhopul calendars/warsaw.txt
	build/sindhopul calendar calendars/warsaw.txt $@

install: lib program build/warsaw.calendar
	install -d $(DESTDIR)$(PREFIX)/bin $(DESTDIR)$(PREFIX)/include $(DESTDIR)$(PREFIX)/lib/pkgconfig \
		$(DESTDIR)$(PREFIX)/share/sindhopul
	install -m 755 build/sindhopul $(DESTDIR)$(PREFIX)/bin
	install -m 644 calendars/warsaw.txt build/warsaw.calendar $(DESTDIR)$(PREFIX)/share/sindhopul
	install -m 644 include/sindhopul.h $(DESTDIR)$(PREFIX)/include
	install -m 644 build/lib/libsindhopul.a $(DESTDIR)$(PREFIX)/lib
	install -m 755 build/lib/libsindhopul.so.1 $(DESTDIR)$(PREFIX)/lib
	ln -sf libsindhopul.so.1 $(DESTDIR)$(PREFIX)/lib/libsindhopul.so
	sed 's|@PREFIX@|$(PREFIX)|; s|@VERSION@|$(VERSION)|' include/sindhopul.pc.in \
		>$(DESTDIR)$(PREFIX)/lib/pkgconfig/sindhopul.pc
	chmod 644 $(DESTDIR)$(PREFIX)/lib/pkgconfig/sindhopul.pc
