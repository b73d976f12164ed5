# make            proves and builds the programs; `make regrun`, `make regrun-link` and so on build one of them
# make test       runs every check on the programs at hand, proved or trial
# make install    puts the proved programs, their manual and the examples below PREFIX; DESTDIR is put before it
# make tarball    packs the same, for a machine without the kit
PREFIX ?= /usr/local
DESTDIR ?=

CRATES := $(shell sed -n 's/^\(regrun_[a-z0-9_]*\).*:.*/\1/p' crates.txt)
# The programs by name: regrun for regrun_main, and regrun-NAME for regrun_NAME.
PROGRAMS := $(patsubst regrun-main,regrun,$(subst _,-,$(CRATES)))
ASKED := $(or $(filter $(PROGRAMS),$(MAKECMDGOALS)),$(PROGRAMS))
# So many crates are proved side by side as there are processors, and 1.5 GB of memory for each, unless -j tells how many.
JOBS := $(shell awk -v most="$$(nproc)" '/^MemAvailable:/ { fit = int($$2 / 1500000) } \
	END { print fit < 1 ? 1 : fit < most ? fit : most }' /proc/meminfo)

VERSION := $(shell cat VERSION)
TARBALL := regrun-$(VERSION)-$(shell uname -m)
TO := $(DESTDIR)$(PREFIX)

.PHONY: all prove test install tarball needs $(PROGRAMS)
all $(PROGRAMS): prove

# One call builds at a time; a second one waits. The lock is given back when the call and all that it started have ended.
prove:
	@command -v rt > /dev/null || { echo "the command rt isn't found: install the Rattle kit and put rt on PATH" >&2; exit 69; }
	@mkdir -p build; exec 9> build/lock; \
	flock -n 9 || { echo 'another make builds here; waiting for it'; flock 9; }; \
	echo 'a line for each crate that is proved; what is said is in build/log'; \
	exec $(MAKE) --no-print-directory $(if $(findstring -j,$(MAKEFLAGS)),,-j$(JOBS)) -f tools/crates.mk programs ASKED='$(ASKED)'

test:
	@python3 -IB tools/test.py


# Below PREFIX stand the launcher in bin, the programs in lib/regrun, and the manual and all that it names in share.
install: $(CRATES:%=install-%)
	install -d $(TO)/bin $(TO)/lib/regrun $(TO)/share/man/man1 $(TO)/share/doc/regrun
	install -m 755 $(PROGRAMS) $(TO)/bin
	echo "regrun $(VERSION), commit $$(git describe --always --dirty --exclude '*' 2> /dev/null || echo unknown), $$(rt version 2> /dev/null || echo 'no kit found'), proved" > $(TO)/lib/regrun/about
	sed 's/^\.TH REGRUN 1.*/.TH REGRUN 1 "" "regrun $(VERSION)" "User commands"/' docs/regrun.1 > $(TO)/share/man/man1/regrun.1
	for it in $(filter-out regrun,$(PROGRAMS)); do echo '.so man1/regrun.1' > $(TO)/share/man/man1/$$it.1; done
	install -m 644 LICENSE CHANGELOG.md docs/*.md docs/*.svg docs/index.html $(TO)/share/doc/regrun
	install -d $(TO)/share/regrun/docs $(TO)/share/regrun/editors $(TO)/share/regrun/examples
	install -m 644 docs/regrun.schema.json docs/usage.txt $(TO)/share/regrun
	install -m 755 docs/page.py $(TO)/share/regrun/docs
	cp -R editors/vim editors/regrun.tmLanguage.json $(TO)/share/regrun/editors
	cp -R examples/. $(TO)/share/regrun/examples
	rm -rf $(TO)/share/regrun/examples/regression/out
	install -m 644 VERSION $(TO)/share/regrun
	cp -R python $(TO)/share/regrun
	rm -rf $(TO)/share/regrun/python/build $(TO)/share/regrun/python/*.egg-info
	find $(TO)/share/regrun \( -name __pycache__ -o -name '.*_cache' -o -name .hypothesis \) -prune -exec rm -rf {} +

# A program is installed only as it was proved.
install-%:
	@[ -x crates/$*/out/$* ] || { echo "$* isn't proved yet: call make" >&2; exit 1; }
	@install -D -m 755 crates/$*/out/$* $(TO)/lib/regrun/$*

tarball:
	rm -rf build/$(TARBALL)
	$(MAKE) install PREFIX=/ DESTDIR=build/$(TARBALL)
	tar -C build -czf build/$(TARBALL).tar.gz $(TARBALL)
	@echo build/$(TARBALL).tar.gz

# What the programs need at run time: the C library alone.
needs:
	@ldd $(foreach it,$(CRATES),crates/$(it)/out/$(it))
