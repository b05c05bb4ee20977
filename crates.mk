# The crates of crates.txt, each proved and built over those that it stands on, into out/proved: a library with its statements and without its
# proofs. The program and the static library are built beside their sources. What is newer than what was made of it is made anew, by time.
# tests/prove.py runs each proof: it says in a line how it went, and shows the errors of one that failed.
KIT := $(patsubst %/bin/rt,%,$(realpath $(shell command -v rt)))
CRATES := $(shell sed -nE 's/^([a-z_]+)[ a-z]*:.*/\1/p' crates.txt)
LIBRARIES := $(filter-out rnxcmp rnxcmp_c,$(CRATES))
PROVED := $(CURDIR)/out/proved

uses_of = $(shell sed -nE 's/^$(1)( [a-z]+)?: *//p' crates.txt)
below_of = $(patsubst %,out/proved/%.made,$(call backward,$(filter $(CRATES),$(call uses_of,$(1)))))
# The last of a line is begun first, since the longest chain of crates goes through it.
backward = $(if $(1),$(call backward,$(wordlist 2,99,$(1))) $(firstword $(1)))
# What is read of one crate, and the toolchain. Folders too: one is newer after a file of it has gone.
files_of = $(shell find $(wildcard crates/$(1)/src crates/$(1)/specs crates/$(1)/proofs)) $(wildcard $(KIT)/KIT-ID)

# The two largest crates come when there is little else to prove: so each has a job for each core, up to 4, with 2 GB of memory for each.
# (crx_compact takes 4 minutes on 2 cores so, and 6 by one job.)
LARGE := crx_compact crx_filter
CORES := $(shell awk -v n="$$(nproc)" '/^MemTotal/ { m = int($$2 / 2e6); if (m < n) n = m; print n < 1 ? 1 : n < 4 ? n : 4 }' /proc/meminfo)

proof_of = @tests/prove.py proof $(1)$(3) $(KIT)/bin/rattle build --crate-name $(1) src/$(2).rt --links $(1)= \
    --jobs $(if $(filter $(1),$(LARGE)),$(CORES),1) \
    $(foreach it,std $(call uses_of,$(1)),--extern $(it)=$(if $(filter $(it),$(CRATES)),$(PROVED),$(KIT)/rlibs)/$(it).rlib) \
    -L dependency=$(KIT)/rlibs -L dependency=$(PROVED) --antt-project $(KIT)/rattle/logic/antt-project.json --logic-built $(KIT)/logic_built
BACKEND = --toolchain $(KIT)/toolchain --backend llvm

define crate
out/proved/$(1).made: $(call files_of,$(1)) $(call below_of,$(1)) | toolchain
	$$(call proof_of,$(1),lib) --statements -o $(PROVED)/$(1).rlib
	@touch $$@
endef
$(foreach it,$(LIBRARIES),$(eval $(call crate,$(it))))

# The object is a target of its own: `rt ci` leaves the program without it, and a release links it anew.
crates/rnxcmp/out/rnxcmp.o: $(call files_of,rnxcmp) $(call below_of,rnxcmp) | toolchain
	$(call proof_of,rnxcmp,main) $(BACKEND) -o out/rnxcmp.o

crates/rnxcmp/out/rnxcmp: crates/rnxcmp/out/rnxcmp.o
	@$(KIT)/bin/rattle-link --target x86_64-unknown-linux-gnu --toolchain $(KIT)/toolchain -o $@ $@.o $(KIT)/c/libos_c.a $(KIT)/c/liblibc_c.a

crates/rnxcmp_c/out/librnxcmp_c.a: $(call files_of,rnxcmp_c) $(call below_of,rnxcmp_c) | toolchain
	$(call proof_of,rnxcmp_c,lib) --crate-type staticlib $(BACKEND) -o out/librnxcmp_c.a

.PHONY: toolchain
toolchain:
	@tests/prove.py toolchain
