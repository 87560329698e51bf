# Each target calls one script, whose head says what it does.
#   make             proves and builds all: the programs lfm and lfm_explain, and the library for C, C++ and Rust
#   make programs    proves and builds these programs alone, and make lib the library alone
#   make install     installs the library that make lib has built below PREFIX, or below DESTDIR and PREFIX
#   make dist        makes a tarball of what is installed
#   make check       the test command: proves, builds and tests everything
#   make bench       times the library from C, C++ and Rust
#   make explore     explores every interleaving of small programs over the library
#   make pictures    draws docs/pictures anew
# OPTIONS are those of the script, as in make explore OPTIONS=--short. For one test in C or C++: make -C c_tests NAME.
PREFIX = /usr/local
OPTIONS =

all: programs lib

programs: ; scripts/build

lib: ; scripts/c/build_c $(OPTIONS)

install: ; scripts/c/install_c $(PREFIX)

dist: ; scripts/c/package

check: ; scripts/test

bench: ; scripts/bench/bench_c $(OPTIONS)

explore: ; scripts/c/explore $(OPTIONS)

pictures: ; scripts/draw/pictures

.PHONY: all programs lib install dist check bench explore pictures
# commands that prove would wait for each other
.NOTPARALLEL:
