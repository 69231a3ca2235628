# ---- the static libraries, for x86-64 and for other processors
# rt builds for x86-64 alone. The toolchain compiles for AArch64 Linux too (targets/build), and its clang has back ends for other processors: these
# get the module that clang compiles for x86-64, and AArch64 without an operating system gets the one for AArch64 Linux, in which the toolchain
# has changed what clang would compile wrong there. The names are rustc's, but cortex-m7: rustc has none for a Cortex-M with instructions for
# doubles.
X86_64 = x86_64-unknown-linux-gnu
AARCH64 = aarch64-unknown-linux-gnu
AARCH64_ALONE = aarch64-unknown-none
TARGET = $(X86_64)
FLAGS_FOR_armv7-unknown-linux-gnueabihf = --target=armv7-unknown-linux-gnueabihf -mfpu=vfpv3-d16 -fPIC
FLAGS_FOR_cortex-m7 = --target=thumbv7em-none-eabihf -mcpu=cortex-m7 -mfpu=fpv5-d16 -fno-pic
FLAGS_FOR_armv7-unknown-linux-gnueabi = --target=armv7-unknown-linux-gnueabi -mfloat-abi=soft -fPIC
FLAGS_FOR_thumbv7em-none-eabi = --target=thumbv7em-none-eabi -mfloat-abi=soft -fno-pic
FLAGS_FOR_riscv64gc-unknown-linux-gnu = --target=riscv64-unknown-linux-gnu -march=rv64gc -mabi=lp64d -fPIC
# No instructions for doubles: these call libgcc's functions, but add by targets/soft_add.c.
SOFT = armv7-unknown-linux-gnueabi thumbv7em-none-eabi
MOVED = $(SOFT) $(filter-out $(SOFT),$(patsubst FLAGS_FOR_%,%,$(sort $(filter FLAGS_FOR_%,$(.VARIABLES)))))
OTHERS = $(MOVED) $(AARCH64) $(AARCH64_ALONE)
LIB_FOLDER = target/lib$(if $(filter-out $(X86_64),$(TARGET)),/$(TARGET))

TOOLS = $(realpath $(dir $(realpath $(shell command -v rt)))../toolchain/bin)
CLANG = $(TOOLS)/clang --no-default-config -Werror
CODE = -O3 -ffunction-sections -fdata-sections
# As the toolchain has it compiled.
COMPILE = $(CLANG) $(CODE) -Wno-override-module $(addprefix -mllvm -,trap-unreachable no-trap-after-noreturn no-x86-call-frame-opt \
	disable-machine-licm disable-postra-machine-licm sink-common-insts=false) -x ir
MODULE = target/module/$(X86_64)
MODULE_AARCH64 = target/module/$(AARCH64)
COMPILE_AARCH64 = $(COMPILE) $(MODULE_AARCH64)/rewritten.ll -Xclang -disable-llvm-passes -mllvm -aarch64-load-store-renaming=false -march=armv8-a
# What a module may have that is right for x86-64 alone (globals, but for constants that are bytes), or from which clang may fuse operations.
X86_ONLY = "target-|"tune-cpu|ptrtoint|inttoptr|addrspace|x86_fp80|llvm\.x86|asm |^@|<[0-9]+ x |fpto[su]i
BYTES = ^@static\.[0-9]+ = private unnamed_addr constant \[[0-9]+ x i8\]
FUSABLE = llvm\.fm|\b(fast|contract|reassoc|nnan|ninf|nsz|arcp|afn)\b

# The static library of a crate, in target/staticlib. rt lib proves first what it stands on.
STATIC_LIBRARY = mkdir -p target/staticlib && $(if $(filter libraries,$(PROVED)),\
	$(call QUIETLY,targets/build $(1) $(X86_64) target/staticlib/lib$(1).a),\
	$(call SHOWN,env -C crates/$(1) rt lib --cpu x86-64) && cp crates/$(1)/out/lib$(1).a target/staticlib/)

.PHONY: lib lib-$(X86_64) $(OTHERS:%=lib-%) module test-targets
lib: lib-$(TARGET)

lib-%:
	@echo "make lib knows no TARGET=$*, only: $(X86_64) $(OTHERS)"; exit 1

lib-$(X86_64): toolchain-check
	@$(call STATIC_LIBRARY,handset_c)
	@mkdir -p target/lib && cp include/handset.h target/lib/ && cp target/staticlib/libhandset_c.a target/lib/libhandset.a

# The module's text, without the processor's name; compiled for x86-64 it has to be the object of the library.
module: lib-$(X86_64)
	@$(call QUIETLY,targets/build handset_c $(X86_64) target/module/libhandset_c.a $(MODULE))
	@cmp target/module/libhandset_c.a target/lib/libhandset.a
	@$(CLANG) --target=$(X86_64) -S -emit-llvm -Xclang -disable-llvm-passes -x ir $(MODULE)/module.bc -o $(MODULE)/whole.ll
	@sed '/^attributes /s/ "target-cpu"="x86-64"//' $(MODULE)/whole.ll > $(MODULE)/module.ll
	@! grep -vE '$(BYTES)' $(MODULE)/module.ll | grep -E -e '$(X86_ONLY)' -e '$(FUSABLE)'
	@$(COMPILE) $(MODULE)/module.ll --target=$(X86_64) -march=x86-64 -fPIC -c -o $(MODULE)/handset.o
	@$(TOOLS)/llvm-ar p target/lib/libhandset.a | cmp - $(MODULE)/handset.o

# By way of assembly only where names in it have to change: RISC-V's assembler refuses some of the module's.
OWN_ADDITION = $(COMPILE) $(MODULE)/module.ll $(FLAGS_FOR_$*) -S -o target/module/$*/named.s && \
	sed 's/__aeabi_\(dadd\|dsub\)/handset_\1/g' target/module/$*/named.s > target/module/$*/handset.s && \
	$(CLANG) $(FLAGS_FOR_$*) -c target/module/$*/handset.s -o target/module/$*/handset.o && \
	$(CLANG) $(FLAGS_FOR_$*) $(CODE) -Wall -Wextra -ffreestanding -fvisibility=hidden -c targets/soft_add.c -o target/module/$*/soft_add.o
$(MOVED:%=lib-%): lib-%: module
	@rm -rf target/lib/$* && mkdir -p target/lib/$* target/module/$* && cp include/handset.h target/lib/$*/
	@$(if $(filter $(SOFT),$*),$(OWN_ADDITION),$(COMPILE) $(MODULE)/module.ll $(FLAGS_FOR_$*) -c -o target/module/$*/handset.o)
	@$(TOOLS)/llvm-ar --format=gnu rcsD target/lib/$*/libhandset.a target/module/$*/*.o

lib-$(AARCH64): lib-$(X86_64)
	@rm -rf target/lib/$(AARCH64) && mkdir -p target/lib/$(AARCH64) && cp include/handset.h target/lib/$(AARCH64)/
	@$(call QUIETLY,targets/build handset_c $(AARCH64) target/lib/$(AARCH64)/libhandset.a $(MODULE_AARCH64))

# Compiled for AArch64 Linux again, the module has to be the object of that library.
lib-$(AARCH64_ALONE): lib-$(AARCH64)
	@rm -rf target/lib/$(AARCH64_ALONE) && mkdir -p target/lib/$(AARCH64_ALONE) target/module/$(AARCH64_ALONE)
	@! grep -nE -e '$(FUSABLE)' $(MODULE_AARCH64)/rewritten.ll
	@$(COMPILE_AARCH64) --target=$(AARCH64) -fPIC -c -o $(MODULE_AARCH64)/handset.o
	@$(TOOLS)/llvm-ar p target/lib/$(AARCH64)/libhandset.a | cmp - $(MODULE_AARCH64)/handset.o
	@$(COMPILE_AARCH64) --target=aarch64-unknown-none-elf -mstrict-align -fno-pic -c -o target/module/$(AARCH64_ALONE)/handset.o
	@cp include/handset.h target/lib/$(AARCH64_ALONE)/
	@$(TOOLS)/llvm-ar --format=gnu rcsD target/lib/$(AARCH64_ALONE)/libhandset.a target/module/$(AARCH64_ALONE)/handset.o

# Tested under qemu, not proved.
test-targets: lib-$(X86_64) $(OTHERS:%=lib-%)
	@targets/test $(X86_64) $(OTHERS)
