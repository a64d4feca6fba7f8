# How a C program is built over the library and run. The kit compiles for x86-64 alone: on such a machine gcc links and the
# program runs as it is; on another the kit's own compiler, linker and emulator stand in. To choose otherwise, give make
# CC, LINK, SHARED and RUN.
MACHINE := $(shell uname -m)

ifeq ($(MACHINE),x86_64)
CC := gcc
LINK = gcc $(LDFLAGS) -o $@
SHARED = gcc $(LDFLAGS) -shared -Wl,-soname,$(SONAME) -o $@ -Wl,--whole-archive $< -Wl,--no-whole-archive
RUN :=
else
KIT := $(or $(RATTLE_HOME),$(shell dirname "$$(dirname "$$(readlink -f "$$(command -v rt)")")"))
HERE := $(KIT)/on/$(MACHINE)
TOOLS := $(HERE)/toolchain
# This machine's own headers serve: what a program here uses of them is the same on both processors.
CC := $(TOOLS)/bin/clang --target=x86_64-linux-gnu -fPIC -nostdinc -isystem $(shell gcc -print-file-name=include) \
      -isystem /usr/include -isystem /usr/include/$(shell gcc -dumpmachine)
LINK = $(HERE)/bin/rattle-link --target x86_64-unknown-linux-gnu --toolchain $(TOOLS) -o $@
SHARED = $(TOOLS)/bin/ld.lld -shared -soname $(SONAME) -o $@ --whole-archive $< --no-whole-archive
RUN := $(TOOLS)/bin/qemu-x86_64 $(TOOLS)/lib/ld-linux-x86-64.so.2 --library-path $(TOOLS)/lib
endif
