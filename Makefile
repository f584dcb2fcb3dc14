# make run    builds the program `schedule` and runs it on the recorded day
# make convert LIST=old.frames OUT=new.frames   turns a recorded list with ids of 64 bits into one with ids of 128 bits (the program `lengthen`)
# make convert-back LIST=new.frames OUT=old.frames   the way back (the program `shorten`)
# make archive   builds the archive for C hosts, crates/hadulmir/out/libhadulmir.a
# make host   builds the archive for C hosts and the example host, and runs it
# make install PREFIX=/usr/local [TARGET=cortex-m4] [DESTDIR=/stage]   header, archive, pkg-config file and CMake package; a TARGET is one of `make targets`
# make targets   builds the archives of the other targets (targets/list) into build/targets
# make targets-test   runs them under qemu; needs cross compilers, some minutes; not part of the gate
# make bench     the program, and each C call, beside the independent scheduler, as ratios
# make bench-convert   the programs `lengthen` and `shorten` on 100 MB of lines beside a copy of them, as ratios; needs 500 MB in build
# make picture   draws the recorded day and the bench marks T10 and T11
# make picture LIST=my.frames OUT=my.svg [ARGUMENTS="--from 5000 --to 6000"]   draws another list
# make fuzz   lines and images by a coverage-guided fuzzer beside the independent scheduler, ten minutes each, and conversions, one minute; not part of the gate
# make mutants   makes the definitions wrong, one token at a time, and tells what notices; it takes long; not part of the gate
# make test   proves everything, tries every must-fail edit, runs the tests: the gate
.PHONY: run convert convert-back lists archive host targets targets-test install bench bench-convert fuzz mutants picture test clean

run: build/schedule.log
	@crates/schedule/out/schedule < examples/day.frames

convert: lists build/lengthen.log
	@crates/lengthen/out/lengthen < "$(LIST)" > "$(OUT)"

convert-back: lists build/shorten.log
	@crates/shorten/out/shorten < "$(LIST)" > "$(OUT)"

# The shell empties OUT before it reads LIST, so they are not one file.
lists:
	@[ -f "$(LIST)" ] && [ -n "$(OUT)" ] || { echo "needed: LIST=.. with a list in it, and OUT=.." >&2; exit 1; }
	@[ ! "$(LIST)" -ef "$(OUT)" ] || { echo "LIST and OUT are the same file" >&2; exit 1; }

# Only what is proved is built, so on a new machine this takes some minutes. `rt run` also runs the program, here on nothing.
PROGRAMS = build/schedule.log build/lengthen.log build/shorten.log
.PHONY: $(PROGRAMS)
$(PROGRAMS): build/%.log:
	@mkdir -p build
	@echo "proving and building $*; on a new machine this takes some minutes" >&2
	@(cd crates/$* && rt run < /dev/null > /dev/null) 2> $@ || { tail -n 20 $@ >&2; exit 1; }

# For every processor of the family: a static library does not look which one it runs on.
ARCHIVE = crates/hadulmir/out/libhadulmir.a
archive: build/archive.log

host: build/archive.log
	@$(CC) -std=c99 -Wall -Wextra -Werror -Iinclude examples/host.c $(ARCHIVE) -o build/host
	@build/host

.PHONY: build/archive.log
build/archive.log:
	@mkdir -p build
	@echo "proving and building libhadulmir.a; on a new machine this takes some minutes" >&2
	@(cd crates/hadulmir && rt lib --cpu x86-64) > $@ 2>&1 || { tail -n 20 $@ >&2; exit 1; }

targets:
	@echo "proving, and building the archives of targets/list; on a new machine this takes some minutes" >&2
	@targets/build

targets-test: targets
	@tests/targets/run

PREFIX ?= /usr/local

ifdef TARGET
install: targets
	@packaging/install build/targets/$(TARGET)/libhadulmir.a $(abspath $(PREFIX)) $(DESTDIR)
else
install: build/archive.log
	@packaging/install $(ARCHIVE) $(abspath $(PREFIX)) $(DESTDIR)
endif

bench: build/schedule.log build/archive.log
	@HADULMIR_ARCHIVE_DIR=$(CURDIR)/crates/hadulmir/out cargo build --quiet --release --offline --manifest-path tests/oracle/Cargo.toml --target-dir build/oracle --features face
	@build/oracle/release/measure crates/schedule/out/schedule build/oracle/release/oracle

bench-convert: build/lengthen.log build/shorten.log
	@cargo build --quiet --release --offline --manifest-path tests/oracle/Cargo.toml --target-dir build/oracle --bin measure_conversions
	@build/oracle/release/measure_conversions crates/lengthen/out/lengthen crates/shorten/out/shorten build

fuzz: build/schedule.log build/archive.log
	@echo "fuzzing images, then lines, ten minutes each, then conversions, one minute" >&2
	@tests/fuzz/run images 600
	@tests/fuzz/run lines 600
	@tests/fuzz/run conversions 60

mutants:
	@tests/mutants

PICTURE = build/oracle/release/picture

ifdef LIST
picture: $(PICTURE)
	@$(PICTURE) $(ARGUMENTS) < $(LIST) > $(OUT)
else
picture: $(PICTURE)
	@$(PICTURE) --title "A recorded day" --names examples/day.names --from 21000 --to 76200 < examples/day.frames > examples/day.svg
	@$(PICTURE) --title "T10: an event that holds nothing blocks nobody" --names docs/t10.names --from 4998 --to 5032 < docs/t10.frames > docs/t10.svg
	@$(PICTURE) --title "T11: one control of two is lost, the other stays" --names docs/t11.names --from 4960 --to 5640 < docs/t11.frames > docs/t11.svg
endif

.PHONY: $(PICTURE)
$(PICTURE):
	@cargo build --quiet --release --offline --manifest-path tests/oracle/Cargo.toml --target-dir build/oracle --bin picture

test:
	tests/run

clean:
	rm -rf build crates/*/out
