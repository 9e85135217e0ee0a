# make play              plays the example session: by the program where it is built, else by a
#                        build without proofs (about a minute)
# make build             proves and builds the program
# make check             while you write: proves what changed, and tries the tests of the crates
#                        that changed since the last green run
# make layout            whether each source is laid out as `rt fmt` does it, which the gate wants,
#                        the version is spelled alike, and the crates and the pages keep their house
#                        (tools/house.py): a second
# make test              everything that is checked before a change lands: the gate, whose last line
#                        is 'N passed, M failed', and beside it want of memory, the library, the
#                        page, and the program that it proved on sockets and files
# make memory            each growth of memory refused in turn, alone
# make edits             tries the edits of the crates, many in a check; the gate tries a few of
#                        them. Those that take long are tried where CRATES="A B" names their
#                        crates, or EVERY=1 asks for all. ANEW=1 takes also what was settled
# make plants            plants wrong bodies that no contract refuses, and tells for each by which
#                        test it is caught (docs/plants.md). CRATES="A B" takes those of these
#                        crates, or of share or include; TESTS=1 asks the tests alone
# make interop           the program against lrzsz, which has to be installed
# make install           puts the program, ymodem-tty, ymodem-judge, the manual pages and the
#                        completion below $(DESTDIR)$(PREFIX)
# make portable          the library for C as files for every processor, 32 bits too: out/portable
# make deb, make dist    the same as a Debian package, with one of the library for C beside it, and
#                        as a tar file, in out/
# make charts            draws the charts of docs/pictures from the traces that the program prints
# make recording         records a transfer anew, and draws it: docs/pictures/transfer.svg, which
#                        the README shows
# make bench             measures the program
# All need the toolchain: `rt` on the path, and Python 3. Tests need pytest (tools/packages.sh).

PREFIX ?= /usr/local
PROGRAM = crates/ymodem/out/ymodem

.PHONY: play build program check layout test cases memory edits plants interop install deb dist charts recording bench clean

play:
	@tools/prove.py play

# `rt run` proves what changed, and builds. It goes on where an interrupted run was.
build:
	@tools/prove.py

# What needs the program alone: a first build reads less, and keeps less for the next one.
program:
	@tools/prove.py alone

check: layout
	@tools/prove.py check

layout:
	@tools/version.py check
	@tools/house.py check
	@# the toolchain's `rattle` lies beside its `rt`, which alone has to be on the path
	@find crates \( -name out -o -name must-fail -o -name edits \) -prune -o \( -name '*.rt' -o -name '*.antt' \) -print0 \
	    | xargs -0 "$$(dirname "$$(readlink -f "$$(command -v rt)")")/rattle" fmt --check \
	    || { echo "run rt fmt in the folder of its crate" >&2; exit 1; }

test: layout
	@tools/gate.py

# The programs that play cases to both ends, and recorded lines for tests/line.
cases:
	cd crates/line_cases && rt run < stdin
	cd crates/port_cases && rt run < stdin

memory:
	@tools/checks.py memory

edits:
	@tools/edits.py $(if $(ANEW),--anew) $(if $(EVERY),--every) $(if $(JOBS),--jobs $(JOBS)) $(CRATES)

plants:
	@tools/plants.py $(if $(TESTS),--tests) $(if $(JOBS),--jobs $(JOBS)) $(CRATES)

interop: build
	@command -v sb > /dev/null && command -v rb > /dev/null || { echo "lrzsz is not installed" >&2; exit 1; }
	@tools/checks.py peers -k test_lrzsz

install: program
	tools/install.sh $(PROGRAM) "$(DESTDIR)$(PREFIX)"

deb: program
	packaging/package.py deb $(PROGRAM) out
	@$(MAKE) --no-print-directory lib TARGETS=x86_64-unknown-linux-gnu
	@$(MAKE) --no-print-directory portable
	packaging/package.py dev out/lib/x86_64-unknown-linux-gnu/libymodem.a out out/portable

dist: program portable
	packaging/package.py dist $(PROGRAM) out out/portable

charts: build
	docs/pictures/draw.py $(PROGRAM)

recording: build
	docs/pictures/record.py $(PROGRAM)

bench: build
	bench/play.py
	bench/sockets.py
	bench/ends.py

clean:
	rm -rf crates/*/out out

# ---- The library for C

# make lib               proves and builds it: out/lib/TARGET/libymodem.a for each of TARGETS
# make test-lib          the checks of the library, which `make test` runs too: on this machine, on
#                        a board without an operating system (QEMU), and of `ymodem send` to U-Boot
# make portable          the same library as out/portable/ymodem.c, ymodem.h and ymodem_io.h, for
#                        any C99 compiler and little-endian processor of 32 or 64 bits; needs
#                        wasm-opt and wasm2c (Debian's binaryen and wabt)
# make test-portable     all checks of these files, and on boards in QEMU; `make test` makes the
#                        short ones
# make install-lib       puts the archive of TARGET, the headers and the file for pkg-config below
#                        $(DESTDIR)$(PREFIX)

TARGETS = x86_64-unknown-linux-gnu aarch64-unknown-linux-gnu wasm64-unknown-unknown
TARGET = x86_64-unknown-linux-gnu

.PHONY: lib test-lib install-lib portable test-portable

lib:
	@mkdir -p out; for target in $(TARGETS); do \
	    (cd crates/ym_c && rt lib --target $$target) > out/lib.log 2>&1 || { cat out/lib.log; exit 1; }; \
	    install -D -m 644 crates/ym_c/out/libym_c.a out/lib/$$target/libymodem.a || exit 1; \
	done

test-lib: build
	@$(MAKE) --no-print-directory lib
	@tools/checks.py library uboot
	@tools/checks.py boards -k test_loader

portable:
	@$(MAKE) --no-print-directory lib TARGETS=$(WASM)
	@tools/portable.py out/lib/$(WASM)/libymodem.a out/portable

test-portable: build portable
	@$(MAKE) --no-print-directory lib TARGETS="$(TARGET) aarch64-unknown-linux-gnu"
	@tools/checks.py portable -m "long or not long"
	@tools/checks.py boards -k test_boards -m "long or not long"

# Whatever stands in PREFIX and DESTDIR: a shell that is given them as text may read more in it.
install-lib: export PREFIX := $(PREFIX)
install-lib: export DESTDIR := $(DESTDIR)
install-lib:
	@$(MAKE) --no-print-directory lib TARGETS=$(TARGET)
	tools/install_library.sh out/lib/$(TARGET)/libymodem.a "$$DESTDIR" "$$PREFIX"

# ---- The page

# make web               proves and builds it: out/web, the page and the module for other pages;
#                        needs wasm-opt (Debian's binaryen)
# make web-serve         shows it on 127.0.0.1, at PORT
# make web-picture       takes the picture of it for docs/web.md, in Chromium
# make test-web          the checks of the page in browsers, which `make test` runs too

PORT = 8000
WASM = wasm64-unknown-unknown

.PHONY: web web-serve web-picture test-web

web:
	@$(MAKE) --no-print-directory lib TARGETS=$(WASM)
	@web/build.py out/lib/$(WASM)/libymodem.a out/web

web-serve: web
	cd out/web && python3 -m http.server --bind 127.0.0.1 $(PORT)

web-picture: web
	docs/pictures/web.py

test-web: build web
	@tools/checks.py web
