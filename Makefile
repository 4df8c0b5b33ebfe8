# make demo      the examples: four texts compiled, filed, checked and run, what a solution misses and how that makes a bad one better, a
#                star numbered otherwise, a large site solved by Crout and by sweeps, and forty weather cases solved by one call
# make pictures  docs/pictures, drawn anew
# make handbook  docs/HANDBOOK.md, counted anew
# make test      the gate
# make bench     the exported functions beside plain Rust
# make clean     removes build/; crates/*/out/ belongs to rt
#
# Wanted: rt, gcc, and for test and bench cargo. Nothing is installed, and nothing outside this folder is written.

LIBRARY = crates/capi/out/libcapi.a
PROVED = crates.txt $(shell find crates -type f -not -path "*/out/*")

CC = gcc
CFLAGS = -std=c11 -O2 -Wall -Wextra -Werror -pedantic
SHARED = build/basics.o build/plan_text.o build/plan.o build/exact.o
HEADERS = include/crout.h $(wildcard examples/*.h)

.PHONY: demo pictures handbook test bench clean

demo: build/sheet build/miss build/refine build/order build/site build/weather
	build/sheet examples/document002.txt build/document002.crout
	build/sheet examples/heating.txt build/heating.crout
	build/sheet examples/nearly_equal.txt build/nearly_equal.crout
	build/sheet examples/looks_cut_off.txt build/looks_cut_off.crout
	build/miss examples/heating.txt
	build/refine examples/grid.txt
	build/order examples/star.txt
	build/site
	build/weather

pictures: docs/pictures/document002.svg docs/pictures/grid.svg docs/pictures/path.svg docs/pictures/ordered.svg

docs/pictures/%.svg: examples/%.txt build/spy
	mkdir -p docs/pictures
	build/spy $< >build/$*.svg
	mv build/$*.svg $@

docs/pictures/path.svg: examples/grid.txt build/spy
	mkdir -p docs/pictures
	build/spy $< 13 12 >build/path.svg
	mv build/path.svg $@

docs/pictures/ordered.svg: examples/grid.txt build/order build/spy
	mkdir -p docs/pictures
	build/order $< >build/ordered.txt
	build/spy build/ordered.txt >build/ordered.svg
	mv build/ordered.svg $@

handbook: build/handbook
	build/handbook >build/HANDBOOK.md
	mv build/HANDBOOK.md docs/HANDBOOK.md

test:
	.ci/run

bench: $(LIBRARY)
	tests/cargo run --offline --release --manifest-path bench/Cargo.toml

build/sheet build/miss build/refine build/spy build/order build/site build/weather build/handbook: build/%: build/%.o $(SHARED) $(LIBRARY)
	$(CC) $(LDFLAGS) $^ -o $@

build/%.o: examples/%.c $(HEADERS) Makefile
	mkdir -p build
	$(CC) $(CFLAGS) -Iinclude -c $< -o $@

$(LIBRARY): $(PROVED)
	cd crates/capi && rt lib

clean:
	rm -rf build
