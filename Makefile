# Builds the command and the libraries for C, and installs them. docs/INSTALL.md says more.
#   make                    into target/make
#   make install            below PREFIX, which is /usr/local; DESTDIR goes before every path
#   make uninstall          takes out what install put there
#   make deb                target/make/golvanzo_VERSION_ARCHITECTURE.deb
# The library is the proved archive, which tools/prove makes where the crates changed since. A toolchain that can compile
# them in seconds without proving them does that instead (tools/quick); today's can't.

VERSION := $(shell cat VERSION)
SONAME := libgolvanzo.so.$(firstword $(subst ., ,$(VERSION)))

PREFIX ?= /usr/local
BINDIR ?= $(PREFIX)/bin
LIBDIR ?= $(PREFIX)/lib
INCLUDEDIR ?= $(PREFIX)/include/golvanzo
SHAREDIR ?= $(PREFIX)/share
# Debian's places for the packages of Python and the completions of zsh
ifeq ($(PREFIX),/usr)
ZSHDIR := zsh/vendor-completions
PYTHONDIR ?= /usr/lib/python3/dist-packages
else
ZSHDIR := zsh/site-functions
PYTHONDIR ?= $(PREFIX)/lib/python$(shell python3 -c 'import sys; print("%d.%d" % sys.version_info[:2])')/dist-packages
endif

ifeq ($(origin CC),default)
CC := gcc
endif
AR ?= ar
CFLAGS ?= -O2
OWN_FLAGS := -std=c11 -Wall -Wextra -Ic
# The command needs no library of the system's at hand
COMMAND_LDFLAGS ?= -static

BUILD ?= target/make
PROVED := target/staticlib/libdesk.a
OBJECTS := $(addprefix $(BUILD)/,plan.o names.o sentences.o version.o)
LIBRARIES := $(BUILD)/libgolvanzo.a $(BUILD)/libgolvanzo.so.$(VERSION)
HEADERS := c/golvanzo.h c/plan.h
PYTHON := $(wildcard python/golvanzo/*.py python/golvanzo/py.typed)

.PHONY: all install uninstall deb clean
.DELETE_ON_ERROR:

all: $(BUILD)/plan $(LIBRARIES) $(BUILD)/texts
	@echo "make: $(BUILD) has plan, libgolvanzo.a and libgolvanzo.so.$(VERSION), $$(cat $(BUILD)/made-of)"

$(BUILD)/libdesk.a: crates.txt $(shell find crates/*/src -name '*.rt') $(wildcard $(PROVED))
	@mkdir -p $(BUILD)
	@if [ "$$(uname -m)" != x86_64 ]; then \
	    ports/library "$$(uname -m)" $@ && echo "for $$(uname -m), whose back end nothing compares" >$(BUILD)/made-of; \
	elif bash -c '. tests/common.sh && archive_is_built'; then \
	    cp $(PROVED) $@ && echo "of the archive that was proved here" >$(BUILD)/made-of; \
	else \
	    tools/quick $@ 2>$(BUILD)/quick.log; \
	    case $$? in \
	    0) echo "compiled without proving the sources again" ;; \
	    3) tools/prove && cp $(PROVED) $@ && echo "of the archive that was proved here" ;; \
	    *) cat $(BUILD)/quick.log >&2; false ;; \
	    esac >$(BUILD)/made-of; \
	fi

$(BUILD)/%.o: c/%.c $(HEADERS) VERSION | $(BUILD)/libdesk.a
	$(CC) $(OWN_FLAGS) $(CFLAGS) -fPIC -c -o $@ $<

# The header's version is that of the file VERSION.
$(BUILD)/version.o: c/version.c $(HEADERS) VERSION | $(BUILD)/libdesk.a
	@said=$$(printf '#include "golvanzo.h"\nGOLVANZO_VERSION_STRING\n' | $(CC) -Ic -E -P - | tail -n 1 | tr -d '" '); \
	[ "$$said" = "$(VERSION)" ] || { echo "make: c/golvanzo.h says $$said, VERSION says $(VERSION)" >&2; exit 1; }
	$(CC) $(OWN_FLAGS) $(CFLAGS) -fPIC -c -o $@ $<

$(BUILD)/libgolvanzo.a: $(BUILD)/libdesk.a $(OBJECTS)
	@rm -f $@
	printf '%s\n' 'create $@' 'addlib $<' $(foreach o,$(OBJECTS),'addmod $(o)') save end | $(AR) -M

$(BUILD)/libgolvanzo.so.$(VERSION): $(BUILD)/libdesk.a $(OBJECTS) c/libgolvanzo.map
	$(CC) -shared -Wl,-soname,$(SONAME) -Wl,--version-script=c/libgolvanzo.map -Wl,-z,defs $(LDFLAGS) \
	    -o $@ $(OBJECTS) -Wl,--whole-archive $< -Wl,--no-whole-archive

$(BUILD)/plan: $(wildcard command/*.c command/*.h) $(BUILD)/libgolvanzo.a
	$(CC) $(OWN_FLAGS) -DGOLVANZO_VERSION='"$(VERSION)"' $(CFLAGS) $(LDFLAGS) $(COMMAND_LDFLAGS) -o $@ $(filter %.c,$^) \
	    $(BUILD)/libgolvanzo.a

# The man page and the completions are the command's own words: how it is asked for them, and where they go.
TEXTS := --man:man/man1/plan.1 --completion,bash:bash-completion/completions/plan --completion,zsh:$(ZSHDIR)/_plan \
    --completion,fish:fish/vendor_completions.d/plan.fish
$(BUILD)/texts: $(BUILD)/plan
	@rm -rf $(BUILD)/said && mkdir -p $(BUILD)/said
	@for text in $(TEXTS); do \
	    name=$${text%%:*}; words=$$(echo "$$name" | tr , ' '); file=$(BUILD)/said/$$name; \
	    if ! $(BUILD)/plan $$words >"$$file" 2>/dev/null </dev/null || [ ! -s "$$file" ]; then \
	        rm -f "$$file"; echo "make: the command has no \"plan $$words\": this text is left out"; \
	    fi; \
	done
	@touch $@

$(BUILD)/golvanzo.pc: c/golvanzo.pc.in VERSION Makefile FORCE
	@sed -e 's|@PREFIX@|$(PREFIX)|' -e 's|@LIBDIR@|$(LIBDIR)|' -e 's|@INCLUDEDIR@|$(INCLUDEDIR)|' \
	    -e 's|@VERSION@|$(VERSION)|' c/golvanzo.pc.in >$@

FORCE:

# Each file's mode, what it is here and where it goes; each link's aim and where it goes.
FILES = 755:$(BUILD)/plan:$(BINDIR)/plan \
    644:$(BUILD)/libgolvanzo.a:$(LIBDIR)/libgolvanzo.a \
    644:$(BUILD)/libgolvanzo.so.$(VERSION):$(LIBDIR)/libgolvanzo.so.$(VERSION) \
    644:$(BUILD)/golvanzo.pc:$(LIBDIR)/pkgconfig/golvanzo.pc \
    $(foreach h,$(HEADERS),644:$(h):$(INCLUDEDIR)/$(notdir $(h))) \
    $(foreach p,$(PYTHON),644:$(p):$(PYTHONDIR)/golvanzo/$(notdir $(p))) \
    $(foreach d,INSTALL REFUSALS,644:docs/$(d).md:$(SHAREDIR)/doc/golvanzo/$(d).md) \
    $(foreach t,$(TEXTS),644:$(BUILD)/said/$(subst :,:$(SHAREDIR)/,$(t)))
LINKS = libgolvanzo.so.$(VERSION):$(LIBDIR)/$(SONAME) $(SONAME):$(LIBDIR)/libgolvanzo.so

# A text that the command does not have yet is left out; whatever else lacks is an error.
install: all $(BUILD)/golvanzo.pc
	@for file in $(FILES); do \
	    rest=$${file#*:}; from=$${rest%%:*}; \
	    case $$from in $(BUILD)/said/*) [ -f "$$from" ] || continue ;; esac; \
	    install -D -m "$${file%%:*}" "$$from" "$(DESTDIR)$${rest#*:}" || exit 1; \
	done
	@for link in $(LINKS); do ln -sf "$${link%%:*}" "$(DESTDIR)$${link#*:}" || exit 1; done
	@[ -n "$(DESTDIR)" ] || [ "$$(id -u)" -ne 0 ] || ! command -v ldconfig >/dev/null || ldconfig
	@echo "make: installed below $(DESTDIR)$(PREFIX)"

# Folders that are Golvanzo's alone go too, if nothing else is in them.
uninstall:
	@for file in $(FILES); do rm -f "$(DESTDIR)$${file##*:}" || exit 1; done
	@for link in $(LINKS); do rm -f "$(DESTDIR)$${link#*:}" || exit 1; done
	@rm -rf "$(DESTDIR)$(PYTHONDIR)/golvanzo/__pycache__"
	@for folder in $(INCLUDEDIR) $(PYTHONDIR)/golvanzo $(SHAREDIR)/doc/golvanzo; do \
	    [ ! -d "$(DESTDIR)$$folder" ] || rmdir --ignore-fail-on-non-empty "$(DESTDIR)$$folder"; \
	done

# A package of Debian's: the command, the libraries and Python's package in one.
PACKAGE = $(BUILD)/golvanzo_$(VERSION)_$(shell dpkg --print-architecture).deb
deb: all
	@rm -rf $(BUILD)/deb
	@$(MAKE) --no-print-directory -s install BUILD=$(BUILD) PREFIX=/usr LIBDIR=/usr/lib/$$($(CC) -print-multiarch) \
	    DESTDIR=$(BUILD)/deb >/dev/null
	@install -d -m 755 $(BUILD)/deb/DEBIAN && echo 'activate-noawait ldconfig' >$(BUILD)/deb/DEBIAN/triggers
	@printf '%s\n' '#!/bin/sh' '# what Python compiles goes with what it was compiled from' \
	    'rm -rf "$${DPKG_ROOT:-}/usr/lib/python3/dist-packages/golvanzo/__pycache__"' >$(BUILD)/deb/DEBIAN/prerm
	@libc=$$(objdump -T $(BUILD)/libgolvanzo.so.$(VERSION) | grep -o 'GLIBC_[0-9.]*' | tr -d GLIBC_ | sort -V | tail -n 1); \
	printf '%s\n' 'Package: golvanzo' 'Version: $(VERSION)' "Architecture: $$(dpkg --print-architecture)" \
	    'Maintainer: Golvanzo maintainers <maintainers@users.noreply.golvanzo.example>' 'Section: electronics' \
	    'Priority: optional' "Depends: libc6 (>= $$libc)" 'Suggests: python3' \
	    "Installed-Size: $$(du -k -s --exclude=DEBIAN $(BUILD)/deb | cut -f 1)" \
	    'Description: circuits in the AIGER formats, by a proved library' \
	    ' The command plan, a library for C with its headers, and a package for Python: they read, write, convert,' \
	    ' reduce and step circuits in the formats of AIGER 1.9.' >$(BUILD)/deb/DEBIAN/control
	@cd $(BUILD)/deb && find usr -type f -print0 | LC_ALL=C sort -z | xargs -0 md5sum >DEBIAN/md5sums
	@chmod 644 $(BUILD)/deb/DEBIAN/* && chmod 755 $(BUILD)/deb/DEBIAN/prerm
	@dpkg-deb --root-owner-group --build $(BUILD)/deb $(PACKAGE) >/dev/null
	@echo "make: $(PACKAGE)"

clean:
	rm -rf $(BUILD)
