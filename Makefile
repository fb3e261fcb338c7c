# make              builds the library, static and shared, the command, its man page and the shells' completions, into target/install
# make install      installs them under PREFIX (/usr/local); DESTDIR stands before it, for packages
# make uninstall    takes them away again
PREFIX = /usr/local
DESTDIR =
CC = gcc
bindir = $(PREFIX)/bin
libdir = $(PREFIX)/lib
includedir = $(PREFIX)/include
datadir = $(PREFIX)/share

version := $(shell sed -n 's/^version = "\(.*\)"/\1/p' tool/Cargo.toml)
soname = libropeinstant.so.$(firstword $(subst ., ,$(version)))
shared = libropeinstant.so.$(version)
library = target/staticlib/libropeinstant.a
command = tool/target/release/ropeinstant
made = target/install
# what is installed beside the command, as FOLDER/NAME
installed = $(bindir)/ropeinstant $(libdir)/libropeinstant.a $(libdir)/$(shared) $(libdir)/$(soname) $(libdir)/libropeinstant.so \
	$(includedir)/ropeinstant.h $(libdir)/pkgconfig/ropeinstant.pc $(datadir)/man/man1/ropeinstant.1 \
	$(datadir)/bash-completion/completions/ropeinstant $(datadir)/zsh/site-functions/_ropeinstant \
	$(datadir)/fish/vendor_completions.d/ropeinstant.fish $(datadir)/doc/ropeinstant/LICENSE

.PHONY: all install uninstall

all:
	tool/build
	mkdir -p $(made)
	$(CC) -shared -Wl,-soname,$(soname) -Wl,-z,defs -Wl,--whole-archive $(library) -Wl,--no-whole-archive -o $(made)/$(shared)
	$(command) man > $(made)/ropeinstant.1
	for shell in bash zsh fish; do $(command) completions $$shell > $(made)/ropeinstant.$$shell || exit 1; done
	sed 's|@prefix@|$(PREFIX)|; s|@libdir@|$(libdir)|; s|@includedir@|$(includedir)|; s|@version@|$(version)|' include/ropeinstant.pc.in > $(made)/ropeinstant.pc

install: all
	install -d $(addprefix $(DESTDIR),$(sort $(dir $(installed))))
	install -m 755 $(command) $(DESTDIR)$(bindir)/ropeinstant
	install -m 644 $(library) $(DESTDIR)$(libdir)/libropeinstant.a
	install -m 755 $(made)/$(shared) $(DESTDIR)$(libdir)/$(shared)
	ln -sf $(shared) $(DESTDIR)$(libdir)/$(soname)
	ln -sf $(soname) $(DESTDIR)$(libdir)/libropeinstant.so
	install -m 644 include/ropeinstant.h $(DESTDIR)$(includedir)/ropeinstant.h
	install -m 644 $(made)/ropeinstant.pc $(DESTDIR)$(libdir)/pkgconfig/ropeinstant.pc
	install -m 644 $(made)/ropeinstant.1 $(DESTDIR)$(datadir)/man/man1/ropeinstant.1
	install -m 644 $(made)/ropeinstant.bash $(DESTDIR)$(datadir)/bash-completion/completions/ropeinstant
	install -m 644 $(made)/ropeinstant.zsh $(DESTDIR)$(datadir)/zsh/site-functions/_ropeinstant
	install -m 644 $(made)/ropeinstant.fish $(DESTDIR)$(datadir)/fish/vendor_completions.d/ropeinstant.fish
	install -m 644 LICENSE $(DESTDIR)$(datadir)/doc/ropeinstant/LICENSE

uninstall:
	rm -f $(addprefix $(DESTDIR),$(installed))
