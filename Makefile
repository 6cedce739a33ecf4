# The tool and the demo panel over the library's archive. CC, CFLAGS and LDFLAGS are honoured.
#
#   make                            builds target/tool/dzintrulo and panel; proves the library first if a crate has changed (rt, minutes)
#   make prove                      proves the library: target/staticlib/libdzintrulo.a, and beside it its mark
#   make quick                      builds target/quick/dzintrulo over a library compiled without proof (rt, seconds)
#   make ARCHIVE=libdzintrulo.a     takes an archive as it is: no rt is needed. Without its mark beside it the tool says NOT PROVED
#   make install PREFIX=/usr/local DESTDIR=
#   make check                      the whole gate, ./test
#
# ./dzintrulo takes the proved library, or else the quick one.
.POSIX:
.PHONY: all prove quick check install uninstall clean FORCE

CC = cc
CFLAGS = -O2
LDFLAGS =
LDLIBS =
PREFIX = /usr/local
DESTDIR =

# The archive that is linked: ARCHIVE as it is, or else what is proved here.
ARCHIVE =
BUILT = target/staticlib/libdzintrulo.a
LIBRARY = "$$(archive='$(ARCHIVE)'; printf '%s' "$${archive:-$(BUILT)}")"
OUT = target/tool
QUICK = target/quick
FLAGS = -std=c99 -Wall -Wextra -Wpedantic -Iinclude -include $(OUT)/mark.h
SOURCES = tool/*.c
HEADERS = include/*.h

# What install brings and uninstall takes away, each as MODE:FILE:PLACE; link:NAME:PLACE is a symbolic link to NAME.
INSTALLED = 755:$(OUT)/dzintrulo:bin/dzintrulo \
	644:include/dzintrulo.h:include/dzintrulo.h \
	644:include/dzintrulo_sheet.h:include/dzintrulo_sheet.h \
	644:$(OUT)/staged/libdzintrulo.a:lib/libdzintrulo.a \
	644:$(OUT)/staged/dzintrulo.pc:lib/pkgconfig/dzintrulo.pc \
	755:$(OUT)/libdzintrulo.so.0:lib/libdzintrulo.so.0 \
	link:libdzintrulo.so.0:lib/libdzintrulo.so \
	644:tool/dzintrulo.1:share/man/man1/dzintrulo.1 \
	644:tool/completion/dzintrulo.bash:share/bash-completion/completions/dzintrulo \
	644:tool/completion/_dzintrulo:share/zsh/site-functions/_dzintrulo

all: $(OUT)/dzintrulo $(OUT)/panel

prove:
	@tool/prove

quick:
	@mkdir -p $(QUICK)
	@tool/quick $(QUICK)/libdzintrulo.a
	@$(MAKE) OUT=$(QUICK) ARCHIVE=$(QUICK)/libdzintrulo.a all

FORCE:

# What the programs are told of the archive. It is another text if the archive's path or content, its mark, the compiler or a flag is another,
# and then all is compiled anew; if not, nothing is written. So dates of archives count for nothing, and their paths may have spaces.
$(OUT)/mark.h: FORCE
	@[ -n '$(ARCHIVE)' ] || tool/prove
	@text=$$(tool/mark in-c $(LIBRARY) '$(CC)' '$(CFLAGS)' '$(LDFLAGS)' '$(LDLIBS)') || exit 1; \
	if [ "$$text" != "$$(cat $@ 2>/dev/null)" ]; then \
		{ mkdir -p $(OUT) && printf '%s\n' "$$text" >$@; } 2>/dev/null || \
			{ echo "dzintrulo: the tool is to be built, and $$PWD/$(OUT) cannot be written" >&2; exit 1; }; \
	fi

# Linked under another name first: a second call never meets half a program.
$(OUT)/dzintrulo: $(SOURCES) tool/tool.h $(HEADERS) $(OUT)/mark.h
	$(CC) $(FLAGS) $(CFLAGS) $(LDFLAGS) -o $@.$$$$ $(SOURCES) $(LIBRARY) $(LDLIBS) && mv $@.$$$$ $@

$(OUT)/panel: panel/panel.c $(HEADERS) $(OUT)/mark.h
	$(CC) $(FLAGS) $(CFLAGS) $(LDFLAGS) -o $@.$$$$ panel/panel.c $(LIBRARY) $(LDLIBS) && mv $@.$$$$ $@

# For languages that cannot include the headers: their functions as symbols, and all of the archive.
$(OUT)/libdzintrulo.so.0: lib/dzintrulo.c $(HEADERS) $(OUT)/mark.h
	$(CC) $(FLAGS) $(CFLAGS) -fPIC -shared -Wl,-soname,libdzintrulo.so.0 $(LDFLAGS) -o $@.$$$$ lib/dzintrulo.c \
		-Wl,--whole-archive $(LIBRARY) -Wl,--no-whole-archive $(LDLIBS) && mv $@.$$$$ $@

check:
	./test

install: all $(OUT)/libdzintrulo.so.0
	@grep -q LIBRARY_KIT $(OUT)/mark.h || echo 'dzintrulo: what is installed is NOT PROVED' >&2
	@mkdir -p $(OUT)/staged
	@cp $(LIBRARY) $(OUT)/staged/libdzintrulo.a
	@version=$$(sed -n 's/^#define DZINTRULO_VERSION "\(.*\)"/\1/p' include/dzintrulo.h); \
	{ printf 'prefix=%s\n' '$(PREFIX)'; sed "s/@VERSION@/$$version/" tool/dzintrulo.pc.in; } >$(OUT)/staged/dzintrulo.pc
	umask 022; for item in $(INSTALLED); do \
		mode=$${item%%:*}; file=$${item#*:}; file=$${file%%:*}; place='$(DESTDIR)$(PREFIX)'/$${item##*:}; \
		mkdir -p "$${place%/*}" || exit 1; \
		if [ $$mode = link ]; then ln -sf $$file "$$place"; else install -m $$mode $$file "$$place"; fi || exit 1; \
	done

uninstall:
	for item in $(INSTALLED); do rm -f '$(DESTDIR)$(PREFIX)'/$${item##*:}; done

# What is proved stays: only what is made in seconds goes.
clean:
	rm -rf $(OUT) $(QUICK)
