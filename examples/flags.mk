# How the programs of examples/ and of lab/ are built: by what, and with which flags. EXAMPLES is the folder of this file.
#
#   CROSS=riscv64-unknown-elf-                                       Debian's gcc-riscv64-unknown-elf in place of gcc-riscv64-linux-gnu
#   COMPILER='clang --target=riscv64-linux-gnu -fuse-ld=lld'         clang with lld
#   LEVEL=-O2                                                        another level than -O1

CROSS = riscv64-linux-gnu-
COMPILER = $(CROSS)gcc
LEVEL = -O1

# The 52 instructions of RV64I alone, integers in integer registers, no library and no start file.
# The code stands where it was linked: not position-independent, and the file has no loader.
CFLAGS = -march=rv64i -mabi=lp64 -Wall -Wextra -ffreestanding -nostdlib -static -fno-pie -no-pie -fno-ident

# Each object in a section of its own, for guest.ld to place; none in one for small data. A store through a null pointer is one.
# clang has no use for one of these flags, and says so where it isn't told otherwise.
PLACED = -ffunction-sections -fdata-sections -msmall-data-limit=0 -fno-delete-null-pointer-checks -Wno-unused-command-line-argument

# No build number, no symbols. Without relaxation the linker doesn't use gp, which the machine starts with zero.
LDFLAGS = -Wl,--no-relax -Wl,--build-id=none -s

BUILD = $(COMPILER) $(CFLAGS) $(LEVEL) $(PLACED) $(LDFLAGS) -Wl,-T,$(EXAMPLES)/guest.ld -I$(EXAMPLES)

# Builds a program, unless it is stored and was built from the sources as they stand; `make -B` builds it all the same.
, := ,
FORCED = $(findstring B,$(firstword -$(MAKEFLAGS)))
SAID = $(if $(findstring s,$(firstword -$(MAKEFLAGS))),:,echo)
define UNLESS_STORED
@if [ -z "$(FORCED)" ] && $(EXAMPLES)/stored check stored.sums $@ $^; then exit 0; fi; \
$(SAID) '$(1)'; $(1) && $(EXAMPLES)/stored note stored.sums $@ $^
endef
