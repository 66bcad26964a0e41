# What can be made; `make` alone lists it.
.PHONY: help show play try-serve build serve quick test test-serve test-memory test-sharing \
    test-clients install clean build-fuse test-fuse test-fuse-mounted try-fuse lib test-c

EXAMPLE := examples/change-layer
SOCKET := out/overlay.socket
PREFIX := /usr/local
PROGRAM := $(or $(OVERLAYD),out/overlayd)
BRIDGE_UNITS := overlayd-fuse@.service overlayd-mount@.service
UNITS := overlayd.service $(if $(wildcard out/overlayd-fuse),$(BRIDGE_UNITS))

help:
	@echo "make show          print the merged tree of $(EXAMPLE).toml, by an unproved build that is"
	@echo "                   made in 2 minutes and kept at out/overlayd-unproved"
	@echo "make play          play $(EXAMPLE).script on it, by the same build"
	@echo "make try-serve     serve it on the socket $(SOCKET) until interrupted, by the same build"
	@echo "make build         prove the program and leave it at out/overlayd: an hour, interruptible"
	@echo "make serve         build, then serve on that socket as try-serve does"
	@echo "make quick         what can be asked of a change in five minutes: layout, documents, and the"
	@echo "                   worked rows on the same build as show's; before a push"
	@echo "make test          the gate: every proof, test, refused edit and program run"
	@echo "make test-serve    tests the server of out/overlayd, or of \$$OVERLAYD, over its own sockets"
	@echo "make test-memory   tests that program with its requests for memory refused (needs cc)"
	@echo "make test-sharing  has 64 clients of that program write parts of one blob for a minute"
	@echo "make test-clients  tests the Python tools, with that program where it is built"
	@echo "make try-fuse DIR=DIRECTORY  mount a copy of a directory, until it is unmounted"
	@echo "make lib           prove the C library and leave it at out/liboverlayd.a and .so.0 (needs cc)"
	@echo "make test-c        tests that library, from C and from Python (needs cc)"
	@echo "make build-fuse    build the bridge to FUSE and leave it at out/overlayd-fuse"
	@echo "make test-fuse     tests it, without FUSE or root; on the program where it is built"
	@echo "make test-fuse-mounted  tests it as root, with real programs beside the kernel's overlayfs"
	@echo "make install       copy that program, the Python tools, the manual and the bridge, where it is"
	@echo "                   built, to $(PREFIX), or to where PREFIX and DESTDIR say"
	@echo "make deb           prove the program, and make a Debian package of all of it in out/"
	@echo "make clean         remove all that was built and proved"

show:
	@tools/try show $(EXAMPLE).toml

play:
	@tools/try play $(EXAMPLE).toml --echo < $(EXAMPLE).script

try-serve:
	@tools/try serve $(EXAMPLE).toml $(SOCKET) --verbose --unlink --no-history

build:
	@tools/need-kit && tools/build

# A server leaves its socket's file behind, which the next one takes.
serve: build
	out/overlayd serve $(EXAMPLE).toml $(SOCKET) --verbose --unlink --no-history

quick:
	@tools/quick

# The gate has at most four proofs side by side, with one job each: several jobs on one proof take
# up to half as much processor time again. What it leaves of the program goes where build puts it.
test:
	@tools/need-kit
	RT_JOBS=$$(($$(nproc) < 4 ? $$(nproc) : 4)) rt ci
	@install -D -m 755 crates/overlayd/out/overlayd out/overlayd

test-serve:
	tools/test-serve

test-memory:
	tools/test-memory

test-sharing:
	tools/test-sharing

test-clients:
	python3 -m unittest discover -s clients/python/tests -t clients/python

.PHONY: deb
deb: build
	@tools/deb

# What was built is copied, not built: a proof takes an hour. The Python tools are found by a path
# of their own, so that they need no other installation. mount(8) looks for its helpers in /sbin alone,
# which is /usr/sbin today.
install:
	@test -x "$(PROGRAM)" || { echo "no program at $(PROGRAM); make build makes it" >&2; exit 1; }
	install -D -m 755 "$(PROGRAM)" "$(DESTDIR)$(PREFIX)/bin/overlayd"
	for page in man/*.1; do \
	  install -D -m 644 $$page "$(DESTDIR)$(PREFIX)/share/man/man1/$${page#man/}" || exit 1; \
	done
	install -d "$(DESTDIR)$(PREFIX)/share/man/man5"
	tools/formats-page > "$(DESTDIR)$(PREFIX)/share/man/man5/overlayd-formats.5"
	for file in README.md docs/*.md clients/python/API.md clients/python/ATTRIBUTES.md \
	    examples/change-layer.*; do \
	  install -D -m 644 $$file "$(DESTDIR)$(PREFIX)/share/doc/overlayd/$${file##*/}" || exit 1; \
	done
	for unit in $(UNITS); do \
	  install -D -m 644 examples/$$unit "$(DESTDIR)$(PREFIX)/lib/systemd/system/$$unit" && \
	  sed -i 's|/usr/local/bin|$(PREFIX)/bin|g' \
	    "$(DESTDIR)$(PREFIX)/lib/systemd/system/$$unit" || exit 1; \
	done
	install -D -m 644 examples/overlayd.sysusers "$(DESTDIR)$(PREFIX)/lib/sysusers.d/overlayd.conf"
	for file in $$(cd clients/python && find overlayd -name '*.py' -o -name py.typed); do \
	  install -D -m 644 clients/python/$$file "$(DESTDIR)$(PREFIX)/lib/overlayd/$$file" || exit 1; \
	done
	for tool in importer exporter supervisor status; do \
	  to="$(DESTDIR)$(PREFIX)/bin/overlayd-$$(echo $$tool | sed 's/er$$//; s/supervisor/serve/')"; \
	  printf '#!/bin/sh\nPYTHONPATH="%s$${PYTHONPATH:+:$$PYTHONPATH}" exec python3 -m %s "$$@"\n' \
	    "$(PREFIX)/lib/overlayd" "overlayd.$$tool" > "$$to" && chmod 755 "$$to" || exit 1; \
	done
	if test -x out/overlayd-fuse; then \
	  install -D -m 755 out/overlayd-fuse "$(DESTDIR)$(PREFIX)/bin/overlayd-fuse" && \
	  install -D -m 644 clients/fuse/overlayd-fuse.1 \
	    "$(DESTDIR)$(PREFIX)/share/man/man1/overlayd-fuse.1" || exit 1; \
	  case "$(PREFIX)" in /usr|/usr/local) \
	    install -d "$(DESTDIR)/usr/sbin" && for name in fuse.overlayd overlayd; do \
	      ln -sf "$(PREFIX)/bin/overlayd-fuse" "$(DESTDIR)/usr/sbin/mount.$$name" || exit 1; \
	    done;; \
	  esac; \
	fi
	if test -f out/liboverlayd.a; then \
	  install -D -m 644 clients/c/include/overlayd.h "$(DESTDIR)$(PREFIX)/include/overlayd.h" && \
	  install -D -m 644 out/liboverlayd.a "$(DESTDIR)$(PREFIX)/lib/liboverlayd.a" && \
	  install -D -m 755 out/liboverlayd.so.0 "$(DESTDIR)$(PREFIX)/lib/liboverlayd.so.0" && \
	  ln -sf liboverlayd.so.0 "$(DESTDIR)$(PREFIX)/lib/liboverlayd.so" && \
	  mkdir -p "$(DESTDIR)$(PREFIX)/lib/pkgconfig" && \
	  sed 's|^prefix=.*|prefix=$(PREFIX)|' out/overlayd.pc \
	    > "$(DESTDIR)$(PREFIX)/lib/pkgconfig/overlayd.pc"; \
	fi

clean:
	rm -rf out crates/*/out clients/python/build clients/python/*.egg-info
	find clients/python tools bench -name __pycache__ -prune -exec rm -rf {} +

lib:
	@tools/need-kit && tools/build-lib

# The library is what make lib left. Without a C compiler that is told, and no fault.
test-c:
	@$(MAKE) --no-print-directory -C clients/c test

try-fuse:
	@tools/try-fuse $(DIR)

build-fuse:
	@tools/need-fuse
	@$(MAKE) --no-print-directory -C clients/fuse bridge

# What the bridge needs may be missing where the engine is proved: that is told, and no fault. The
# tests run on both transports: a server's socket, and the engine's calls in the bridge's process.
test-fuse:
	@if tools/need-fuse; then \
	    $(MAKE) --no-print-directory -C clients/fuse checked && \
	    python3 -m unittest discover -s clients/fuse/tests -t clients/fuse && \
	    if test -x out/overlayd-fuse-passing; then \
	      TRANSPORT=inside python3 -m unittest discover -s clients/fuse/tests -t clients/fuse; \
	    fi; \
	else echo "make test-fuse: skipped"; fi

# Needs root, /dev/fuse, the kernel's overlayfs and the program; what is missing is told.
test-fuse-mounted:
	@if tools/need-fuse; then \
	    $(MAKE) --no-print-directory -C clients/fuse checked && \
	    python3 -m unittest discover -v -s clients/fuse/tests -t clients/fuse -p 'mounted_*.py' && \
	    TRANSPORT=inside python3 -m unittest discover -v -s clients/fuse/tests -t clients/fuse \
	      -p 'mounted_*.py'; \
	else echo "make test-fuse-mounted: skipped"; fi
