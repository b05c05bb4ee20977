# What `make dist` has of each machine of TARGETS, in out/machines: the program and the library, proved for its target, and what
# packaging/machine.sh makes of the two. Windows has what is proved for x86-64, as the modules that rattle hands to clang.
TARGETS ?= x86-64-v2
MACHINES := x86-64-v2 x86-64 aarch64 windows

target_of_x86-64 := --target x86_64-unknown-linux-gnu --cpu x86-64
target_of_aarch64 := --target aarch64-unknown-linux-gnu

# rattle's clang with a copy of each module that it is handed, for a machine: a toolchain of its own.
keeping = $(CURDIR)/out/machines/$(1)/$(2)-toolchain

define machine
out/machines/$(1)/rnxcmp.o: $(call files_of,rnxcmp) $(call below_of,rnxcmp) packaging/keeping.sh | toolchain
	@packaging/keeping.sh $(KIT)/toolchain $(call keeping,$(1),rnxcmp)
	$(call proof_of,rnxcmp,main,@$(1)) --toolchain $(call keeping,$(1),rnxcmp) --backend llvm $(target_of_$(1)) -o $(CURDIR)/$$@
	@mv $(call keeping,$(1),rnxcmp)/module.bc out/machines/$(1)/rnxcmp.bc && rm -r $(call keeping,$(1),rnxcmp)

out/machines/$(1)/librnxcmp_c.a: $(call files_of,rnxcmp_c) $(call below_of,rnxcmp_c) packaging/keeping.sh | toolchain
	@packaging/keeping.sh $(KIT)/toolchain $(call keeping,$(1),rnxcmp_c)
	$(call proof_of,rnxcmp_c,lib,@$(1)) --crate-type staticlib --toolchain $(call keeping,$(1),rnxcmp_c) --backend llvm $(target_of_$(1)) -o $(CURDIR)/$$@
	@mv $(call keeping,$(1),rnxcmp_c)/module.bc out/machines/$(1)/rnxcmp_c.bc && rm -r $(call keeping,$(1),rnxcmp_c)
endef
$(foreach it,x86-64 aarch64,$(eval $(call machine,$(it))))

HANDED := packaging/machine.sh packaging/retarget.py $(wildcard packaging/*.c library/* include/*) VERSION

out/machines/x86-64-v2/made: crates/rnxcmp/out/rnxcmp.o crates/rnxcmp_c/out/librnxcmp_c.a $(HANDED)
	packaging/machine.sh x86-64-v2 crates/rnxcmp/out/rnxcmp.o crates/rnxcmp_c/out/librnxcmp_c.a $(@D)/built
	@touch $@

out/machines/x86-64/made out/machines/aarch64/made: out/machines/%/made: out/machines/%/rnxcmp.o out/machines/%/librnxcmp_c.a $(HANDED)
	packaging/machine.sh $* out/machines/$*/rnxcmp.o out/machines/$*/librnxcmp_c.a $(@D)/built
	@touch $@

out/machines/windows/made: out/machines/x86-64/rnxcmp.o out/machines/x86-64/librnxcmp_c.a $(HANDED)
	packaging/machine.sh windows out/machines/x86-64/rnxcmp.bc out/machines/x86-64/rnxcmp_c.bc $(@D)/built
	@touch $@

.PHONY: $(MACHINES:%=machine-%)
$(MACHINES:%=machine-%): machine-%: out/machines/%/made
