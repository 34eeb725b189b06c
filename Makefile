# What `make help` prints stands behind ## here.
PREFIX ?= /usr/local
DESTDIR ?=
PROGRAM_PREFIX ?=
PROGRAMS = $(patsubst crates/%/src/main.rt,%,$(wildcard crates/*/src/main.rt))

.PHONY: all install uninstall test edits bench help

all: ## build all programs (target/bin) and both archives for C (target/lib), each proved with all that it is built on
	@tools/build $(PROGRAMS)
	@tools/archive em73862 em73p982

install: all ## put programs, headers, archives, pkg-config files and man pages under PREFIX (/usr/local), each program's name behind PROGRAM_PREFIX (none)
	@tools/install "$(DESTDIR)$(PREFIX)" "$(PREFIX)" "$(PROGRAM_PREFIX)"

uninstall: ## take away what install put there
	@tools/install --remove "$(DESTDIR)$(PREFIX)" "$(PREFIX)" "$(PROGRAM_PREFIX)"

test: ## the gate: every proof from nothing, every edit that must be refused, every test; some three quarters of an hour
	@tools/test

edits: ## the edits that the prover must refuse and that the gate does not try
	@tools/test-edits

bench: ## the proved calls beside plain Rust in one process, on x86-64
	@tools/bench

help: ## this list
	@sed -n 's/^\([a-z]*\):.* ## /\1: /p' Makefile
