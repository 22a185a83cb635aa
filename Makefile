# make proves and builds what there is and runs the tests and examples in C; make test is the whole gate; see
# make help.
.DEFAULT_GOAL := all
.PHONY: all test near check compare ctest archives boards audit records mutants together bench example tools fmt style
.PHONY: replay numbers layers pages change clean help toolchain

all: check
	@scripts/ctest

# rt ci comes first, and its last line is said last: it is the verdict
test: toolchain
	@scripts/gate

# for the work between two gates: make near BASE=COMMIT
near: toolchain
	@scripts/near $(BASE)

check: toolchain
	@rt all check

# the second program against the proved archive
compare: toolchain
	@scripts/compare --proved

# the archive for each machine, out of the proved module
archives: toolchain
	@scripts/archives --proved

# the examples and the recorded cases on the archives, those of other machines in an emulator
boards: toolchain
	@scripts/boards --proved

# what an auditor and an engineer read, check and keep; LOG is the output of a gate, for its seconds
audit: archives
	@scripts/audit $(if $(LOG),--log $(LOG))

# what the programs cases and replay are run on, and the second program's answers to it
records: toolchain
	@scripts/native target/compare
	@second/build target/compare/libmonitor.a target/compare/second
	@target/compare/second --record 4000 --seed 1 --cases crates/cases/stdin --answers crates/cases/stdout
	@target/compare/second --shift 4000 --seed 2 --damaged 7 >crates/replay/stdin
	@target/compare/second --replay crates/replay/stdin >crates/replay/stdout

# wrong models that the comparison has to tell apart; to be kept: make mutants >second/mutants/seen.txt
mutants: toolchain
	@scripts/native target/compare >&2
	@second/try-mutants target/compare/libmonitor.a --list

# definitions that are wrong together with their code: a claim has to refuse each; docs/together.txt keeps the rows
together: check
	@scripts/together --keep

bench: toolchain
	@scripts/bench

# the program that scripts/replay runs, for the machine at hand
replay: toolchain
	@scripts/native --program replay
	@echo target/native/replay

# the header against the compiled library, for the machine at hand; without gcc it is skipped, and says so
ctest: toolchain
	@scripts/ctest

# the part of ctest that builds and runs the examples, with what they print
example: toolchain
	@scripts/ctest --examples

tools:
	@scripts/board-tools

fmt: toolchain
	@for crate in crates/*; do (cd "$$crate" && rt fmt) || exit 1; done

style:
	@scripts/style

numbers:
	@scripts/numbers

layers:
	@scripts/layers

# every page of the repository that a script prints, anew
pages:
	@index=$$(scripts/claims) && printf '%s\n' "$$index" >docs/CLAIMS.md
	@scripts/pictures

# the page of a change since BASE, a commit: PAGE is the file, LOGS and GATES two logs each, before and after
change:
	@scripts/changes $(if $(PAGE),--into $(PAGE)) $(if $(LOGS),--logs $(LOGS)) $(if $(GATES),--gates $(GATES)) $(BASE)

clean:
	@rm -rf target

help:
	@echo "make          prove every crate, build and run the programs, the tests in C and the examples in C"
	@echo "make test     the whole gate: rt ci, then style, the second program, the tests in C, the archives of the"
	@echo "              boards; its last line is rt ci's, the verdict"
	@echo "make near BASE=COMMIT  the gate but for the edits of crates that have not changed since the commit; no verdict"
	@echo "make check    prove what changed since it was last proved, and run the programs"
	@echo "make compare  compare the proved archive, compiled for this machine, with the second program"
	@echo "make archives write target/archives: the proved archive for x86-64, aarch64 and RISC-V (lp64d, lp64)"
	@echo "make boards   run the examples and the recorded cases on these archives, where they can be run"
	@echo "make audit    write target/audit: pages, claims, sources and pictures for a browser, versions, sums, the verdict;"
	@echo "              LOG=FILE, the output of a gate, adds what each crate cost"
	@echo "make records  have the second program write anew what the programs cases and replay are run on"
	@echo "make mutants  try wrong models: the comparison has to see each"
	@echo "make together try definitions that are wrong together with their code: a claim has to refuse each; half an hour"
	@echo "make bench    time every call, and count its instructions, beside plain C with the same promises"
	@echo "make replay   compile the program that scripts/replay runs a record of calls by, and print its path"
	@echo "make ctest    hold the C header to the compiled library: prototypes, tests, programs to be refused"
	@echo "make example  build the examples in C for this machine, run them, print and compare what they print"
	@echo "make tools    install what boards needs (Debian, as root): C compilers for RISC-V and the other desk, an emulator"
	@echo "make fmt      bring every source file under crates/ into the layout"
	@echo "make style    what the checker does not see: sizes, layers, width, headers, holes, contracts, names, paths"
	@echo "make numbers  how much there is: crates, functions, lines, claims, edits"
	@echo "make layers   the picture of the layers, from crates.txt"
	@echo "make pages    print and draw anew what is generated and kept: docs/CLAIMS.md and docs/pictures"
	@echo "make change   BASE=COMMIT PAGE=docs/changes/M-101.md: the page of a change, from two runs of rt prove"
	@echo "make clean    remove target/, where all that is built lies"
	@echo "All but tools, style, numbers, layers, pages, clean and help need rt, the command of the Rattle toolchain, on"
	@echo "PATH."

toolchain:
	@command -v rt >/dev/null 2>&1 || { \
	    echo "make: rt is not on PATH. It is the command of the Rattle toolchain, and all that is needed." >&2; \
	    exit 1; }
