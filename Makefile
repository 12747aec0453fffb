# Installs inet with its manual page, and the library for C with its header and a file for pkg-config.
#
#   make                proves and builds what is installed, by Rattle's command rt (half an hour the first time, and up to
#                       a quarter more for the library)
#   make install        puts it below $(DESTDIR)$(PREFIX), and builds it first where it is older than its sources
#   make uninstall      takes it away again
#
# With sudo, make first: rt is seldom on root's PATH.

PREFIX = /usr/local
DESTDIR =
CC = cc
AR = ar
INSTALL = install

version != sed -n 's/^\#define INET_TABLES_VERSION "\(.*\)"$$/\1/p' callers/inet_tables.h
sources != find crates.txt crates -name out -prune -o \( -name '*.rt' -o -name '*.antt' -o -name crates.txt \) -print

below = $(DESTDIR)$(PREFIX)

.PHONY: all install uninstall

all: out/inet out/libinet_tables.a

# The launcher builds the program; on an empty script it writes nothing.
out/inet: $(sources)
	./inet run </dev/null
	mkdir -p out
	cp crates/inet/out/launcher/inet $@

# The library takes its memory from heap.c, so that a program needs nothing else. One that has functions of these names
# itself keeps to its own.
out/libinet_tables.a: $(sources) callers/heap.c
	cd crates/inet_c && rt lib
	mkdir -p out
	$(CC) -O2 $(CFLAGS) -c callers/heap.c -o out/heap.o
	cp crates/inet_c/out/libinet_c.a $@.new
	$(AR) rs $@.new out/heap.o
	mv $@.new $@

install: all
	$(INSTALL) -d $(below)/bin $(below)/libexec/inet $(below)/share/man/man1 $(below)/lib/pkgconfig $(below)/include
	$(INSTALL) -m 755 inet $(below)/bin/inet
	$(INSTALL) -m 755 out/inet $(below)/libexec/inet/inet
	$(INSTALL) -m 644 docs/inet.1 $(below)/share/man/man1/inet.1
	$(INSTALL) -m 644 out/libinet_tables.a $(below)/lib/libinet_tables.a
	$(INSTALL) -m 644 callers/inet_tables.h $(below)/include/inet_tables.h
	printf '%s\n' 'prefix=$(PREFIX)' 'libdir=$${prefix}/lib' 'includedir=$${prefix}/include' '' \
	    'Name: inet_tables' "Description: Linux's TCP socket tables for IPv4" 'Version: $(version)' \
	    'Cflags: -I$${includedir}' 'Libs: -L$${libdir} -linet_tables -pthread' >out/inet_tables.pc
	$(INSTALL) -m 644 out/inet_tables.pc $(below)/lib/pkgconfig/inet_tables.pc

uninstall:
	rm -f $(below)/bin/inet $(below)/libexec/inet/inet $(below)/share/man/man1/inet.1
	rm -f $(below)/lib/libinet_tables.a $(below)/include/inet_tables.h $(below)/lib/pkgconfig/inet_tables.pc
	rmdir $(below)/libexec/inet 2>/dev/null || true
