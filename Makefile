# Installs what rt has proved and built: see `make help`. Only `make lib` proves something.
.POSIX:
.SUFFIXES:

PREFIX = /usr/local
DESTDIR =

# What is installed, and where it stands.
PROGRAM = target/bin/optlines
VIEW = target/bin/optview
ARCHIVE = target/staticlib/libcapi.a
SHARED = target/lib/liboptlines.so.3
SCRIPT = optlines
VIEW_SCRIPT = optview
LARGE = target/bin/optlarge
LARGE_SCRIPT = optlarge
FRONT = tools/front.sh
RUN_BUILT = tools/run-built
VERSION = VERSION
TOOLCHAIN = TOOLCHAIN

# The library for record files.
RECORDS_ARCHIVE = target/staticlib/librecordcapi.a
RECORDS_SHARED = target/lib/liboptrecords.so.1

to = $(DESTDIR)$(PREFIX)
own = libexec/optlines
installed = bin/optlines bin/optlarge bin/optview $(own)/optlines $(own)/optlarge \
	$(own)/optview $(own)/front.sh \
	$(own)/run-built $(own)/VERSION $(own)/TOOLCHAIN share/man/man1/optlines.1 \
	share/man/man1/optlarge.1 share/man/man1/optview.1 include/optlines.h lib/liboptlines.a \
	lib/liboptlines.so.3 lib/liboptlines.so lib/pkgconfig/optlines.pc
exported = optlines_optimize optlines_run_pass optlines_optimize_large optlines_run_pass_large
maker = lib

records_exported = optrecords_check optrecords_record optrecords_lines optrecords_to_ol \
	optrecords_to_om

# The linker for x86-64, on either kind of machine.
link = $$([ "$$(uname -m)" = x86_64 ] && echo cc || echo x86_64-linux-gnu-gcc)

all:
	@missing=; \
	for each in "$(PROGRAM)|tools/built optlines" "$(LARGE)|tools/built optlarge" \
	    "$(LARGE_SCRIPT)|git checkout $(LARGE_SCRIPT)" "$(VIEW)|tools/built optview" \
	    "$(ARCHIVE)|make lib" "$(SHARED)|make lib" "$(SCRIPT)|git checkout $(SCRIPT)" \
	    "$(VIEW_SCRIPT)|git checkout $(VIEW_SCRIPT)" "$(FRONT)|git checkout $(FRONT)" \
	    "$(RUN_BUILT)|git checkout $(RUN_BUILT)" "$(VERSION)|git checkout $(VERSION)" \
	    "$(TOOLCHAIN)|git checkout $(TOOLCHAIN)"; do \
	    [ -e "$${each%%|*}" ] && continue; \
	    missing=1; echo "make: $${each%%|*} is missing: run $${each#*|}" >&2; \
	done; \
	if [ -n "$$(find "$(ARCHIVE)" -newer "$(SHARED)" 2>/dev/null)" ]; then \
	    missing=1; echo "make: $(SHARED) is older than $(ARCHIVE): run make shared" >&2; \
	fi; \
	[ -z "$$missing" ] && echo "Nothing is missing: make install PREFIX=$(PREFIX)"

help:
	@echo "make            says what is missing and how to build it"; \
	echo "make lib        proves the library (tools/built capi, minutes the first time) and writes"; \
	echo "                $(ARCHIVE) and $(SHARED)"; \
	echo "make lib-po     the same for include/optpo.h: target/staticlib/libpocapi.a and"; \
	echo "                target/lib/liboptpo.so.1"; \
	echo "make shared     writes $(SHARED) from $(ARCHIVE), as it is"; \
	echo "make records    proves the library for record files (tools/built recordcapi) and writes"; \
	echo "                $(RECORDS_ARCHIVE) and $(RECORDS_SHARED)"; \
	echo "make install    installs optlines, optlarge and optview, man pages, the header, both libraries and"; \
	echo "                optlines.pc under PREFIX ($(PREFIX)); DESTDIR goes before it"; \
	echo "make uninstall  removes them, with the same PREFIX and DESTDIR"; \
	echo "make help       prints this"; \
	echo; \
	echo "After an install where the system looks for libraries, run ldconfig once."

lib:
	tools/built capi
	$(MAKE) shared

# The same for the strings as a PO file: include/optpo.h.
lib-po:
	tools/built pocapi
	$(MAKE) shared ARCHIVE=target/staticlib/libpocapi.a SHARED=target/lib/liboptpo.so.1 \
	    exported='optpo_write optpo_read' maker=lib-po

# A shared library: the archive whole, and of its names those of the header alone.
shared:
	@[ -f "$(ARCHIVE)" ] || { echo "make: $(ARCHIVE) is missing: run make $(maker)" >&2; exit 1; }
	@command -v $(link) >/dev/null || { echo "make: no $(link): run tools/setup" >&2; exit 1; }
	@mkdir -p "$$(dirname "$(SHARED)")"
	{ echo '{ global:'; printf '%s;\n' $(exported); echo 'local: *; };'; } >"$(SHARED).map"
	$(link) -shared -o "$(SHARED).new" -Wl,-soname,"$$(basename "$(SHARED)")" -Wl,-z,defs -Wl,-z,now \
	    -Wl,--version-script="$(SHARED).map" -Wl,--whole-archive "$(ARCHIVE)" -Wl,--no-whole-archive
	mv -f "$(SHARED).new" "$(SHARED)"

# The library for record files, proved, and its shared library with the names of its header alone.
records:
	tools/built recordcapi
	$(MAKE) records-shared

records-shared:
	@$(MAKE) -s shared ARCHIVE="$(RECORDS_ARCHIVE)" SHARED="$(RECORDS_SHARED)" \
	    maker=records exported="$(records_exported)"

install: all
	install -d "$(to)/bin" "$(to)/$(own)" "$(to)/share/man/man1" "$(to)/include" "$(to)/lib/pkgconfig"
	install -m 755 "$(SCRIPT)" "$(to)/bin/optlines"
	install -m 755 "$(LARGE_SCRIPT)" "$(to)/bin/optlarge"
	install -m 755 "$(VIEW_SCRIPT)" "$(to)/bin/optview"
	install -m 755 "$(PROGRAM)" "$(to)/$(own)/optlines"
	install -m 755 "$(LARGE)" "$(to)/$(own)/optlarge"
	install -m 755 "$(VIEW)" "$(to)/$(own)/optview"
	install -m 755 "$(RUN_BUILT)" "$(to)/$(own)/run-built"
	install -m 644 "$(FRONT)" "$(to)/$(own)/front.sh"
	install -m 644 "$(VERSION)" "$(to)/$(own)/VERSION"
	install -m 644 "$(TOOLCHAIN)" "$(to)/$(own)/TOOLCHAIN"
	install -m 644 man/optlines.1 "$(to)/share/man/man1/optlines.1"
	install -m 644 man/optlarge.1 "$(to)/share/man/man1/optlarge.1"
	install -m 644 man/optview.1 "$(to)/share/man/man1/optview.1"
	install -m 644 include/optlines.h "$(to)/include/optlines.h"
	install -m 644 "$(ARCHIVE)" "$(to)/lib/liboptlines.a"
	install -m 755 "$(SHARED)" "$(to)/lib/liboptlines.so.3"
	ln -sf liboptlines.so.3 "$(to)/lib/liboptlines.so"
	printf '%s\n' 'prefix=$(PREFIX)' 'libdir=$${prefix}/lib' 'includedir=$${prefix}/include' '' \
	    'Name: optlines' 'Description: Tidies register listings' "Version: $$(cat "$(VERSION)")" \
	    'Cflags: -I$${includedir}' 'Libs: -L$${libdir} -loptlines' \
	    >"$(to)/lib/pkgconfig/optlines.pc"

uninstall:
	for each in $(installed); do rm -f "$(to)/$$each" || exit 1; done
	[ ! -d "$(to)/$(own)" ] || rmdir "$(to)/$(own)"

.PHONY: all help lib lib-po shared records records-shared install uninstall
