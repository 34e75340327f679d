SHELL = /bin/bash
.SHELLFLAGS = -eo pipefail -c
# one after the other, also with -j: rt's runs share the folders out/ of the crates
.NOTPARALLEL:

# make help                  this list; a bare make prints it too
.PHONY: help
help:
	@sed -n 's/^# \(make [a-z].*\)/\1/p' Makefile

# ---- what can be asked for

# An unknown setting, and a file that is there as a command, are passed over by make in silence: they are told first.
COMMANDS = help run show office lib test compare caller bench more-edits clean
COMPARING = test compare caller rust compared-program compared-library compared-office
PARTS = $(COMPARING) need-% benchrun answers
ASKED := $(or $(MAKECMDGOALS),help)
TAKES := RT_JOBS $(if $(filter run show,$(ASKED)),LIST) $(if $(filter office,$(ASKED)),REGISTER) \
	$(if $(filter $(COMPARING),$(ASKED)),LISTS CALLS SEED)
GIVEN := $(foreach name,$(.VARIABLES),$(if $(filter command,$(firstword $(origin $(name)))),$(name)))
as_list = $(if $(filter LIST,$(TAKES))$(filter %.list %.calls,$1),: write make $(or $(filter run show,$(ASKED)),run) LIST=$1,$2)
instead = $(if $(filter REGISTER,$(TAKES))$(filter %.register,$1),: write make office REGISTER=$1,$(call as_list,$1,$2))
$(foreach word,$(filter-out $(COMMANDS) $(PARTS),$(ASKED)),$(error '$(word)' is no command$(call instead,$(word),: make alone lists them)))
$(foreach name,$(filter-out $(TAKES),$(GIVEN)),$(error make $(ASKED) takes no '$(name)'$(call instead,$(value $(name)),: it takes $(strip $(TAKES)))))

# ---- what commands need

# The toolchain that the tree was last proved with, as `rt version` says it.
PROVED_WITH = rattle-kit-13f logic dac8208d650f15bf

BENCHRUN = target/bin/benchrun
LIBRARY = target/staticlib/libgelmuszta.a
ANSWERS = target/answers
MODEL = tests/target/release
CARGO_TARGETS = tests/target tests/library/target tools/target tools/office/target bench/target

# A tool that is not there is told before anything is built.
NEEDED = rt cargo cc c++ nm python3
FOR_rt = the Rattle toolchain: it proves and builds the crates
FOR_cargo = it builds the model, the tools and the measurements, which are in Rust
FOR_cc = it compiles the callers in C, and links what cargo builds
FOR_c++ = it compiles the caller in C as C++
FOR_nm = it tells what the library asks of a program
FOR_python3 = it runs docs/check-statements
.PHONY: $(NEEDED:%=need-%)
$(NEEDED:%=need-%): need-%:
	@command -v $* > /dev/null || { echo "make: $* is not found: $(FOR_$*)" >&2; exit 1; }
	@$(if $(filter 0,$(MAKELEVEL)),$(TOLD_$*))
# Another toolchain is no fault.
TOLD_rt = said=$$(rt version); [ "$$said" = '$(PROVED_WITH)' ] || \
	echo "make: rt version says $$said; the tree was last proved with $(PROVED_WITH)" >&2

# So is a list or a register that cannot be read. The recipes take its name from the environment, so that it may have any
# characters.
LIST ?= examples/sample.list
REGISTER ?= examples/register/office.register
export LIST REGISTER
READABLE = if [ -z "$$$1" ]; then fault='names no file'; \
	elif [ ! -e "$$$1" ]; then fault='is not there'; \
	elif [ -d "$$$1" ]; then fault='is a folder'; \
	elif [ ! -r "$$$1" ]; then fault='may not be read'; \
	else exit 0; fi; \
	echo "make: $1=$$$1 $$fault" >&2; exit 1
.PHONY: need-list need-register
need-register:
	@$(call READABLE,REGISTER)
need-list:
	@$(call READABLE,LIST)
	@# text has no byte below a space but tab and line ends; a pipe is not looked into
	@if [ -f "$$LIST" ] && [ -s "$$LIST" ] && \
		[ -z "$$(LC_ALL=C tr -d '\11\12\15\40-\377' < "$$LIST" | head -c 1 | od -An -tx1)" ]; then \
		printf 'make: LIST=%s looks like text, and a list is binary. This makes a list of it:\n    %s %q > %q\n' "$$LIST" \
			'cargo run --quiet --release --manifest-path tools/Cargo.toml --bin calls2list' "$$LIST" "$${LIST%.calls}.list" >&2; \
	fi

# Proved and built where a source changed or the program was removed; what is said of it goes to standard error.
.PHONY: benchrun
benchrun: need-rt
	@tools/prove program benchrun

# The answers of benchrun to the list. The program has no exit status of its own: its last line says that they are whole.
.PHONY: answers
answers: need-list benchrun
	@$(BENCHRUN) < "$$LIST" > $(ANSWERS)
	@tail -n 1 $(ANSWERS) | grep -Eqx '(end|list) [0-9]+' || { echo "make: the answers to $$LIST are not whole" >&2; exit 1; }

# ---- the commands; the first line of each comment is what make help prints

# make run LIST=FILE         prove and build benchrun where that is not done yet, and run a list of calls
# What it prints is the answers alone: the rest goes to standard error.
.PHONY: run
run: need-list need-rt answers
	@cat $(ANSWERS)

# make show LIST=FILE        the same in words: the calls of a list beside their answers
.PHONY: show
show: need-list need-rt need-cargo need-cc answers
	@cargo build --quiet --release --offline --manifest-path tools/Cargo.toml
	@tools/target/release/listshow "$$LIST" $(ANSWERS)

# make office REGISTER=FILE  who can open which segment, by a register of handles given out
# What it prints is the page alone. Not optimised, as in the gate: the library is, and nothing else takes time.
.PHONY: office
office: need-register need-rt need-cargo need-cc lib
	@cargo build --quiet --offline --manifest-path tools/office/Cargo.toml
	@tools/office/target/debug/registershow "$$REGISTER"

# make lib                   prove and build the library for C, target/staticlib/libgelmuszta.a; its header is include/gelmuszta.h
.PHONY: lib
lib: need-rt
	@tools/prove library gelmuszta
	@$(if $(filter lib,$(MAKECMDGOALS)),echo 'link with: cc -Iinclude FILE.c $(LIBRARY)')

# make test                  the whole gate; the last line is rt's 'N passed, 0 failed'
# The names in STATEMENTS, layout, proofs and must-fail edits with the Rust tests beside them, programs, the comparison with the
# model: that of the library, which is proved once more for its archive, beside that of the program. rt ci passes where an edit
# cannot be tried; the gate does not.
GATE = tests/target
# not $(MAKE) in the recipe, for make -n would then run the line
PART = $(MAKE) --no-print-directory
.PHONY: test
test: $(NEEDED:%=need-%)
	docs/check-statements
	@grep -qF '$(PROVED_WITH)' README.md || { echo 'make: README.md does not name $(PROVED_WITH)' >&2; exit 1; }
	cargo fmt --check --manifest-path tests/Cargo.toml
	cargo fmt --check --manifest-path tests/library/Cargo.toml
	cargo fmt --check --manifest-path tools/Cargo.toml
	cargo fmt --check --manifest-path tools/office/Cargo.toml
	cargo fmt --check --manifest-path bench/Cargo.toml
	@mkdir -p $(GATE)
	tools/beside $(GATE)/rust.log 'nice -n 19 $(PART) rust' 'rt ci 2>&1 | tee $(GATE)/gate.log'
	@! grep '^rt: ok.*, [1-9][0-9]* bad' $(GATE)/gate.log || { echo 'make: a must-fail edit is bad' >&2; exit 1; }
	@tools/prove built benchrun
	@awk '/^test result/ { passed += $$4; failed += $$6 } END { print "Rust tests: " passed " passed, " failed " failed" }' $(GATE)/rust.log
	tools/beside $(GATE)/program.log '$(PART) compared-program' '$(PART) caller compared-library compared-office'
	@cat $(GATE)/program.log
	@tail -n 1 $(GATE)/gate.log

# What needs neither benchrun nor the library.
.PHONY: rust
rust: need-cargo need-cc
	cargo test --quiet --offline --manifest-path tests/Cargo.toml
	cargo test --quiet --offline --manifest-path tools/Cargo.toml
	cargo build --quiet --release --offline --manifest-path tests/Cargo.toml
	$(BUILT_QUICKLY) cargo build --quiet --release --offline --manifest-path tests/library/Cargo.toml --package model --lib
	cargo build --quiet --offline --manifest-path tools/office/Cargo.toml --package tools --lib

# make compare               benchrun and the library against the separately written model
# Every example, the ways that input and output can come, lists and calls made by chance, the published handles; and the
# office's page of its example.
LISTS ?= 2000
CALLS ?= 100000
SEED ?= 1
.PHONY: compare compared-program compared-library compared-office
compare: need-rt need-cargo need-cc benchrun lib compared-program compared-library compared-office

# These run no rt, so that they may run beside it; benchrun and the library have to be there.
compared-program:
	cargo build --quiet --release --offline --manifest-path tests/Cargo.toml
	$(MODEL)/streams-against $(BENCHRUN) $(SEED) examples/*.list examples/lists/*.list examples/measured/*.list
	$(MODEL)/lists-against $(BENCHRUN) $(SEED) $(LISTS)
compared-office:
	cargo test --quiet --offline --manifest-path tools/office/Cargo.toml
compared-library:
	$(BUILT_QUICKLY) cargo test --quiet --release --offline --manifest-path tests/library/Cargo.toml
	$(BUILT_QUICKLY) cargo run --quiet --release --offline --manifest-path tests/library/Cargo.toml \
		--bin against-library $(SEED) $(CALLS)
# Not optimised across crates: with that the tests take three times as long to build, and run for two thirds of the time.
BUILT_QUICKLY = CARGO_PROFILE_RELEASE_LTO=off CARGO_PROFILE_RELEASE_CODEGEN_UNITS=16

# make caller                compile and run the caller in C that the README shows, and one that calls every function
# As C99, as C11 and as C++11.
EVERY = $(addprefix examples/c/,every.c freezing.c joining.c widths.c lengths.c registers.c cutting.c)
STRICT = -Wall -Wextra -pedantic -Werror -Iinclude
.PHONY: caller
caller: need-rt need-cc need-c++ need-nm lib
	@# what the library asks of a program that links it: these two functions of C and no other
	@nm -u $(LIBRARY) | awk '$$1 == "U" && $$2 != "memcpy" && $$2 != "memset" { print "make: the library asks for " $$2; more = 1 } END { exit more }' >&2
	sed -n '/^    #include "gelmuszta.h"/,/^    }$$/s/^    //p' README.md | cmp - <(grep . examples/c/caller.c)
	for compile in 'cc -std=c99' 'cc -std=c11' 'c++ -x c++ -std=c++11'; do \
		$$compile $(STRICT) examples/c/caller.c -x none $(LIBRARY) -o target/caller; \
		target/caller | cmp - examples/c/caller.out; \
		$$compile $(STRICT) $(EVERY) -x none $(LIBRARY) -o target/every; \
		target/every; \
	done

# make bench                 the measurements of docs/PERFORMANCE.md: the proved code beside Rust
.PHONY: bench
bench: need-rt need-cargo need-cc benchrun lib
	@tools/prove library measured
	cargo run --quiet --release --offline --manifest-path bench/Cargo.toml
	cargo run --quiet --release --offline --manifest-path tests/library/Cargo.toml --bin measure
	cc -std=c99 -O1 -fno-builtin -Wall -Wextra -pedantic -Werror -Iinclude bench/takes.c $(LIBRARY) -Wl,-z,now -o target/takes
	target/takes
	cargo build --quiet --release --offline --manifest-path tests/Cargo.toml
	$(MODEL)/time-lists $(BENCHRUN) $(MODEL)/model-benchrun 500 examples/measured/reads.list examples/measured/clusters.list

# make more-edits            the edits of crates/*/more, which the gate leaves out for its time
# The prover refuses these too.
.PHONY: more-edits
more-edits: need-rt
	@tools/prove more-edits

# make clean                 remove all that these commands write
.PHONY: clean
clean:
	rm -rf target crates/*/out $(CARGO_TARGETS)
