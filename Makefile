# Builds the shift check and the library, installs them, and runs the gate. GNU make.
#
#   make                  builds what is not current
#   make install          installs below PREFIX (/usr/local); DESTDIR stands before each path, for staging
#   make uninstall        removes what install has installed
#   make check            runs the gate, .ci/run
#
# NATIVE=1 takes the library for this machine from tools/native-archive. The kit is for x86-64 alone, where it is the same one.

PREFIX ?= /usr/local
DESTDIR ?=
NATIVE ?=

# The recipes take these from the environment, where any character may stand in a path.
export PREFIX DESTDIR NATIVE

archive = $(if $(filter 1,$(NATIVE)),target/native/libawelodrun.a,target/staticlib/libawelodrun.a)
kind = $(if $(filter 1,$(NATIVE)),native,staticlib)

# All that is installed, from the prefix.
installed = include/awelodrun.h lib/libawelodrun.a lib/pkgconfig/awelodrun.pc libexec/awelodrun/shift \
    libexec/awelodrun/run-program bin/shift-check share/awelodrun/words/refusals share/awelodrun/VERSION \
    share/man/man1/shift-check.1
# The folders that are the project's own.
own = share/awelodrun/words share/awelodrun libexec/awelodrun

.PHONY: all program library place install uninstall check

all: program library

program:
	@tools/build program shift

library:
	@tools/build $(kind) awelodrun

# A prefix is written into awelodrun.pc, where these characters mean something else.
place:
	@case $$PREFIX in \
	/*) ;; \
	*) echo 'PREFIX must begin with /' >&2; exit 2 ;; \
	esac; \
	case $$PREFIX in \
	*[\"\'\`\\\$$\#]*) echo 'PREFIX must not hold a quote, a backslash, $$ or #' >&2; exit 2 ;; \
	esac

install: place all
	@set -eu; to=$$DESTDIR$$PREFIX; \
	for file in $(installed); do mkdir -p "$$to/$${file%/*}"; done; \
	install -m 644 include/awelodrun.h "$$to/include/awelodrun.h"; \
	install -m 644 $(archive) "$$to/lib/libawelodrun.a"; \
	version=$$(cat VERSION); \
	VERSION=$$version awk '{ \
	    while (at = index($$0, "@PREFIX@")) $$0 = substr($$0, 1, at - 1) ENVIRON["PREFIX"] substr($$0, at + 8); \
	    while (at = index($$0, "@VERSION@")) $$0 = substr($$0, 1, at - 1) ENVIRON["VERSION"] substr($$0, at + 9); \
	    print \
	}' awelodrun.pc.in >"$$to/lib/pkgconfig/awelodrun.pc"; \
	chmod 644 "$$to/lib/pkgconfig/awelodrun.pc"; \
	install -m 755 target/bin/shift "$$to/libexec/awelodrun/shift"; \
	install -m 755 tools/run-program "$$to/libexec/awelodrun/run-program"; \
	sed 's/^layout=tree$$/layout=installed/' shift-check >"$$to/bin/shift-check"; \
	grep -q '^layout=installed$$' "$$to/bin/shift-check"; \
	chmod 755 "$$to/bin/shift-check"; \
	install -m 644 words/refusals "$$to/share/awelodrun/words/refusals"; \
	install -m 644 VERSION "$$to/share/awelodrun/VERSION"; \
	install -m 644 man/shift-check.1 "$$to/share/man/man1/shift-check.1"

uninstall: place
	@set -eu; to=$$DESTDIR$$PREFIX; \
	for file in $(installed); do rm -f "$$to/$$file"; done; \
	for folder in $(own); do [ ! -d "$$to/$$folder" ] || rmdir "$$to/$$folder" || :; done

check:
	@.ci/run
