# Proves and builds crates, one rule for each line of crates.txt; Makefile calls this. `make -f tools/crates.mk NAME` builds
# the program NAME (regrun, regrun-link, ..), where what is built stands in the crate's own folder out/, and is its stamp.
# `make -f tools/crates.mk programs ASKED='NAME NAME'` builds those named.
CRATES := $(shell sed -n 's/^\([a-z][a-z0-9_]*\).*:.*/\1/p' crates.txt)
PROGRAMS := $(filter regrun_%,$(CRATES))
KIT := $(dir $(shell rt doc))

# Each crate of the longest chain is proved by so many jobs, and each other one by one.
CHAIN_JOBS ?= 2
CHAIN := $(shell wc -l crates/*/src/*.rt | awk -f tools/chain.awk - crates.txt)

# $(call uses,CRATE): the crates of this folder that it stands on.
uses = $(filter $(CRATES),$(shell sed -n 's/#.*//; s/^$(1)\( [^:]*\)\{0,1\}://p' crates.txt))
built = crates/$(1)/out/$(if $(wildcard crates/$(1)/src/main.rt),$(1),rlib/stamp)
sources = crates.txt $(wildcard $(KIT)WHAT) $(shell find crates/$(1)/src crates/$(1)/specs crates/$(1)/proofs 2> /dev/null)
jobs = $(if $(filter $(1),$(CHAIN)),$(CHAIN_JOBS),1)

define rule
$(call built,$(1)): $(call sources,$(1)) $(foreach it,$(call uses,$(1)),$(call built,$(it)))
	@python3 -IB tools/prove.py $(1) $(call jobs,$(1))
endef
$(foreach it,$(CRATES),$(eval $(call rule,$(it))))

.PHONY: programs $(subst _,-,$(PROGRAMS)) regrun

# The program of the longest chain comes first: of the crates that can be proved, make takes those that it stands on.
programs: $(filter $(ASKED),$(subst regrun-main,regrun,$(subst _,-,$(filter $(CHAIN),$(PROGRAMS))))) $(ASKED)

$(foreach it,$(PROGRAMS),$(eval $(subst _,-,$(it)): $(call built,$(it))))
regrun: regrun-main
