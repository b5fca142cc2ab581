# Builds and installs the C library, with its header and its descriptions for pkg-config and CMake, and the program. cargo builds the static and the
# shared library on every system that Rust supports. BY=rattle installs the static library built by Rattle's own compilers, for x86-64 Linux; an
# archive that exists is not built again.
#
#   make install PREFIX=/usr/local
#   cc program.c $(pkg-config --cflags --libs wat)
#
# Without a crate registry, CARGO is cargo with its options: CARGO='cargo --offline --config ..'.
#
# The other targets run the checks of the repository; `make help` lists them.
#
## make                  the C library: an archive and a shared library
## make install          both, wat.h, and the files for pkg-config and CMake (PREFIX, DESTDIR; BY=rattle: built by Rattle's own compilers)
## make program          the program and the language server, in rust/target/release
## make install-program  both, with a manual page and completions for bash, zsh and fish (PREFIX, DESTDIR)
## make wheel            the package for Python, in python/dist (PYTHON: a Python with cffi, setuptools and wheel)
## make dist             a release, as a folder (OUT; PROOF_LOG=FILE; BY=rattle: also archives built by Rattle's compilers)
## make tests            the tests of the Rust packages
## make checks           the checks that take a minute or two: mutants apply, documents, names, version, generated Rust
## make proof-check      rt ci: proves every crate, kills mutants, runs tests and programs (LOG=FILE: also writes its log, for make dist)
## make parts            lists the parts of CI: group, name, command
## make part OF=NAME     runs one part or one group; .ci/run runs all of them
## make mutants OF=NAME  tries the mutants of a function, of a crate, or the mutant of this name
## make readme           runs the commands of README.md and docs/cli.md

PREFIX ?= /usr/local
PYTHON ?= python3
OUT ?= dist
CARGO ?= cargo
CARGO_TARGET_DIR ?= rust/target
override CARGO_TARGET_DIR := $(abspath $(CARGO_TARGET_DIR))
export CARGO_TARGET_DIR
version := $(shell sed -n 's/^version = "\(.*\)"/\1/p' rust/Cargo.toml)
major := $(firstword $(subst ., ,$(version)))
BINDIR ?= $(PREFIX)/bin
includes := $(DESTDIR)$(PREFIX)/include
libraries := $(DESTDIR)$(PREFIX)/lib
programs := $(DESTDIR)$(BINDIR)
share := $(DESTDIR)$(PREFIX)/share

.PHONY: all install install-shared install-descriptions install-program help program wheel dist tests checks parts part proof-check mutants readme
ifeq ($(BY),rattle)

folder := crates/wat_c/out
archive := $(folder)/libwat.a
all: $(archive)

# Merges both archives into one, so that a program links one file.
$(archive):
	tools/release/build_c_library.sh
	cd $(folder) && rm -f libwat.a && printf 'create libwat.a\naddlib libwat_c.a\naddlib liblibc_c.a\nsave\nend\n' | ar -M

install-shared:

else

folder := $(CARGO_TARGET_DIR)/release
archive := $(folder)/libwat_c.a
# The system libraries that the archive needs, as rustc prints them, except -lgcc_s: a C compiler adds it itself, under another name with -static.
PRIVATE = $(filter-out -lgcc_s,$(shell cat $(folder)/libwat_c.libs))
ifeq ($(shell uname -s),Darwin)
built := libwat_c.dylib
shared := libwat.dylib
named := libwat.$(major).dylib
name_flag = -Wl,-install_name,$(PREFIX)/lib/$(named)
else
built := libwat_c.so
shared := libwat.so
named := $(shared).$(major)
name_flag = -Wl,-soname,$(named)
endif

all:
	cd rust && $(CARGO) rustc --locked --release --package wat-c -- \
	    -C link-arg=$(name_flag) --print native-static-libs=$(folder)/libwat_c.libs

install-shared: all
	install -d $(libraries)
	install -m 755 $(folder)/$(built) $(libraries)/$(named)
	ln -sf $(named) $(libraries)/$(shared)
	@$(if $(DESTDIR),:,$(update_cache))

endif

# Adds the shared library to the cache of Linux's loader. Prints a hint if the loader does not find the library afterwards.
define update_cache
[ "$$(uname -s)" != Linux ] || { PATH=$$PATH:/sbin:/usr/sbin; \
    [ "$$(id -u)" != 0 ] || ! command -v ldconfig > /dev/null || ldconfig; \
    ldconfig -p 2> /dev/null | grep -q ' $(PREFIX)/lib/$(named)$$' \
        || echo 'make install: a program finds the shared library with LD_LIBRARY_PATH=$(PREFIX)/lib, or if ldconfig knows that folder'; }
endef

install: all install-shared
	install -d $(libraries)
	install -m 644 $(archive) $(libraries)/libwat.a
	@$(MAKE) --no-print-directory install-descriptions

# Installs the header, and the descriptions for pkg-config and CMake. PKG_PREFIX is the prefix written into wat.pc.
PKG_PREFIX ?= $(PREFIX)
fill = sed 's|@PREFIX@|$(PKG_PREFIX)|; s|@VERSION@|$(version)|; s|@PRIVATE@|$(PRIVATE)|'
install-descriptions:
	install -d $(includes) $(libraries)/pkgconfig $(libraries)/cmake/wat
	install -m 644 include/wat.h $(includes)/
	$(fill) include/wat.pc.in > $(libraries)/pkgconfig/wat.pc
	$(fill) include/watConfig.cmake.in > $(libraries)/cmake/wat/watConfig.cmake
	$(fill) include/watConfigVersion.cmake.in > $(libraries)/cmake/wat/watConfigVersion.cmake

help:
	@sed -n 's/^## //p' Makefile

program:
	cd rust && $(CARGO) build --locked --release --package wat-tokens --package wat-language-server --bins

install-program: program
	install -d $(programs) $(share)/man/man1 $(share)/bash-completion/completions $(share)/zsh/site-functions $(share)/fish/vendor_completions.d
	install -m 755 $(CARGO_TARGET_DIR)/release/wat_tokens $(programs)/
	install -m 755 $(CARGO_TARGET_DIR)/release/wat_language_server $(programs)/
	install -m 644 rust/wat-tokens/man/wat_tokens.1 $(share)/man/man1/
	install -m 644 rust/wat-tokens/completions/wat_tokens.bash $(share)/bash-completion/completions/wat_tokens
	install -m 644 rust/wat-tokens/completions/_wat_tokens $(share)/zsh/site-functions/
	install -m 644 rust/wat-tokens/completions/wat_tokens.fish $(share)/fish/vendor_completions.d/

wheel: all
	@$(MAKE) --no-print-directory python/dist

# Builds the wheel with the shared library that WAT_LIBRARY names, by default the one that cargo built.
.PHONY: python/dist
python/dist:
	rm -rf python/build python/dist
	cd python && WAT_LIBRARY=$${WAT_LIBRARY:-$(folder)/$(built)} $(PYTHON) -c 'from setuptools.build_meta import build_wheel; print(build_wheel("dist"))'

dist:
	tools/release/dist.sh $(OUT)

tests:
	cd rust && $(CARGO) test --locked --workspace

checks:
	.ci/run quick

parts:
	@.ci/run --list

part:
	.ci/run $(OF)

proof-check:
	$(if $(LOG),tools/release/proof_check.sh $(LOG),rt ci)

mutants:
	tools/mutants/mutants.py try $(OF)

readme:
	tools/test/readme.sh --quick
