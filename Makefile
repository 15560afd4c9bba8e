# The README's commands: `make demo` shows the worked listing and its picture, `make test` is the whole gate. `make lib` makes the library for C,
# and `make install PREFIX=..` puts it in its place. `make valgrind` and `make bench` want valgrind, and `make fuzz` installs a fuzzer. `make
# mutants` and `make rewritings` try changes of the definitions and of the code, `make wrong` the comparisons on wrong copies of the second program.
.PHONY: demo test lib install valgrind bench fuzz mutants rewritings wrong

PREFIX ?= /usr/local

demo:
	@tools/demo

test:
	@tools/test

lib:
	@tools/build lomvadric
	@install -D -m 644 target/staticlib/liblomvadric.a target/lib/liblomvadric.a

install:
	@tools/install "$(PREFIX)"

valgrind:
	@tools/x86 only 'make valgrind'
	@tools/build lomvadric
	@tools/test_boot
	@tools/valgrind_boot

bench:
	@tools/x86 only 'make bench'
	@$(MAKE) --no-print-directory lib
	@tools/build bench_measure schedule
	@bench/run
	@bench/program

wrong:
	@tools/build test_answers schedule
	@tools/build lomvadric
	@tools/wrong_copies

fuzz:
	@tools/x86 only 'make fuzz'
	@tools/build schedule
	@tools/build lomvadric
	@tools/fuzz

mutants:
	@tools/mutants

rewritings:
	@tools/rewritings
