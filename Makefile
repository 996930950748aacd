# The commands of this repository; each is one line, and may be given by hand as well.
.PHONY: help demo test lib install uninstall bench figures fmt

# Where make install puts headers, archive, pkg-config file and man page; DESTDIR stands before it where a package is made.
PREFIX ?= /usr/local
DESTDIR ?=
export PREFIX DESTDIR

help:
	@echo 'make demo     a sand figure is stored, two disks are lost, and it comes back; PLATE="--mode 2,9" and the like choose'
	@echo 'make test     the gate, .ci/run: prove every crate, then all tests'
	@echo 'make lib      target/staticlib/libfiddlefern.a, for C and Rust to link'
	@echo 'make install  headers, archive, pkg-config file and man page into PREFIX=/usr/local; make uninstall removes them'
	@echo 'make bench    how fast the calls of that archive are, against memcpy and plain Rust'
	@echo 'make figures  the figures of docs/PERFORMANCE.md: sizes, instructions, stack, speed'
	@echo 'make fmt      lay out every source file'

test:
	.ci/run

lib:
	.ci/archive

install:
	@tools/install.sh

uninstall:
	@tools/install.sh --remove

demo: lib
	CARGO_TARGET_DIR=rust/target cargo run --quiet --offline --locked --manifest-path rust/Cargo.toml --package fiddlefern --example plate -- --out target/demo $(PLATE)

bench:
	cargo bench --offline --manifest-path rust/Cargo.toml --package fiddlefern --bench calls

fmt:
	for crate in crates/*/; do (cd "$$crate" && rt fmt) || exit 1; done

figures:
	@tools/figures.sh
