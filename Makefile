# What the program and the library are made of. These are commands:
#     make [CPU=x86-64-v2|x86-64-v3]              proves and builds the program out/cats
#     make library [CPU=..]                       the library, in out/library or out/library-x86-64-v3
#     make install [CPU=..] [DIR=..]              installs the program below a folder, ~/.local if none is given
#     make uninstall [DIR=..]                     removes it
#     make test                                   ./test
#     make check-CRATE [ONLY=FUNCTION]            checks a crate, or one function and what it calls
# The shell reads names as variables, so that nothing in them is code.
override CPU := $(value CPU)
override DIR := $(value DIR)
override ONLY := $(value ONLY)
export CPU DIR ONLY
cpu = $${CPU:+--cpu "$$CPU"}
folder = $${DIR:+"$$DIR"}

program:
	@tools/build $(cpu)
library:
	@tools/build --library $(cpu)
install:
	@./install $(cpu) $(folder)
uninstall:
	@./install --remove $(folder)
test:
	@./test
check-%:
	@tools/build --crate $* "$$ONLY"

# The rest is for tools/build, which calls make in a copy of the files. crates.txt is read as rules: a crate is made of the libraries that it
# uses. Those of the toolchain are there.
include crates.txt
crates := $(notdir $(wildcard crates/*))
used := $(shell sed 's/\#.*//; s/.*://' crates.txt)
.PHONY: program library install uninstall test link-cats link-cats_c $(crates) $(used)
c_library = "$$KIT/c/liblibc_c.a"
log = >> "$$OUT/build.log" 2>&1

$(crates):
	@tools/prove $@ $^

link-cats: cats
	"$$KIT/bin/rattle-link" --target x86_64-unknown-linux-gnu --toolchain "$$KIT/toolchain" -o "$$WORK/made/cats" \
	    "$$WORK/libraries/cats.o" "$$KIT/c/libos_c.a" $(c_library) $(log)

# Both libraries have what was compiled and the allocator's calls, which are C. Of the shared one only the exports are seen. Programs find it by
# its name, of which the number rises if a program that was linked with it no longer works.
SONAME = libcats.so.2
link-cats_c: cats_c
	cp -R bindings/yinchaku bindings/cats.h bindings/libcats.pc "$$WORK/made"
	ln -s $(SONAME) "$$WORK/made/libcats.so"
	"$$KIT/toolchain/bin/llvm-ar" qcsL "$$WORK/made/libcats.a" "$$WORK/libraries/libcats_c.a" $(c_library) $(log)
	"$$KIT/toolchain/bin/ld.lld" -shared -soname $(SONAME) --version-script=bindings/exports -z defs -z now -o "$$WORK/made/$(SONAME)" \
	    --whole-archive "$$WORK/made/libcats.a" --no-whole-archive "$$KIT/toolchain/lib/libgcc.a" "$$KIT/toolchain/lib/libc.so.6" $(log)
