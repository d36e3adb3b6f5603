# The C interface, over the archive that `rt lib` writes in crates/capi.
WARN := -Wall -Wextra -Wpedantic -Wconversion -Wsign-conversion -Wshadow -Wcast-qual -Wcast-align=strict -Wundef -Wswitch-enum -Wformat=2 \
	-Wredundant-decls -Werror
STRICT_C := gcc $(WARN) -Wstrict-prototypes -Wmissing-prototypes -O2 -Iinclude
STRICT_CXX := g++ $(WARN) -Wold-style-cast -Wuseless-cast -Wzero-as-null-pointer-constant -O2 -Iinclude

ctest: ctest-archive ctest-prototypes ctest-calls ctest-header

# The archive has no writable data, defines the calls alone, and asks the C library for nothing but copying and filling memory.
ctest-archive:
	@size $(ARCHIVE) | awk 'NR == 2 && $$2 + $$3 != 0 { print "the archive has writable data"; exit 1 }'
	@nm --format=posix $(ARCHIVE) | awk 'NF > 1 && $$2 !~ /[rt]/ { print $$2, $$1 }' | LC_ALL=C sort \
		| diff <(printf '%s %s\n' $(CALLS:%=T %) U memcpy U memset | LC_ALL=C sort) -

# The header declares the exports, all of them and nothing else, parameter by parameter.
ctest-prototypes:
	@sed -n '/^uint[0-9]*_t shares_/,/);$$/p' include/shares.h | tr -s '\n ' ' ' | sed 's/; */;\n/g' \
		| diff <(awk -f ctests/exports.awk crates/capi/src/lib.rt) -

# Symbols are bound before the program starts, so that the loader leaves no traces on a painted stack.
ctest-calls:
	@mkdir -p target/c
	@for name in refusals slack measures measured_list strands sizes empty stack threads; do \
		$(STRICT_C) -std=c11 ctests/$$name.c $(ARCHIVE) -pthread -Wl,-z,now -o target/c/$$name; target/c/$$name; \
	done
	@$(STRICT_C) -std=c99 examples/desk.c $(ARCHIVE) -o target/c/desk
	@target/c/desk | diff examples/desk.out -

# The header as each C and C++ that it is for.
ctest-header:
	@mkdir -p target/c
	@for standard in c99 c11 c17; do \
		$(STRICT_C) -Wc++-compat -std=$$standard -DSTANDARD=\"$$standard\" ctests/header.c $(ARCHIVE) -o target/c/header; target/c/header; \
	done
	@for standard in c++98 c++11 c++17 c++20; do \
		$(STRICT_CXX) -std=$$standard -DSTANDARD=\"$$standard\" -x c++ ctests/header.c -x none $(ARCHIVE) -o target/c/header; target/c/header; \
	done
