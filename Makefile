# The rule desk's commands. Each does its own set-up on a fresh machine.
.PHONY: run desk install test bench pictures
PREFIX ?= /usr/local

# the verdicts on a table's questions: make run, or make run TABLE=file
run:
	@scripts/run $(TABLE)

# the program desk, every service from the command line: target/bin/desk
desk:
	@scripts/desk

# desk, verdicts, the C header, the static library and its pkg-config file: make install, or make install PREFIX=directory
install:
	@scripts/install "$(PREFIX)"

# prove every crate, try every must-fail edit, run every test; the last line is 'N passed, 0 failed'
test:
	@scripts/test

# the library's time against plain Rust
bench:
	@scripts/bench

# the README's picture, from table A
pictures:
	@scripts/pictures
