# make archive             target/libyohrundel.a, what programs in other languages link
# make install PREFIX=..   the command, the archive, the header, a pkg-config file, the man page, bash's completion and the crate for Rust
# make dist                a tarball of these for machines without Rattle, with checksums and the gate's last line
PREFIX = /usr/local
archive = target/libyohrundel.a
command = rust/target/release/yohrundel
version := $(shell sed -n 's/^version = "\(.*\)"$$/\1/p' rust/Cargo.toml)
name = yohrundel-$(version)
folder = $(DESTDIR)$(PREFIX)

# The archive is of three static libraries that are compiled one by one, so that the compiler makes one function of the whole lent turn.
crates = yohrundel yohrundel_lent yohrundel_row
proved := $(shell find crates -name out -prune -o \( -name '*.rt' -o -name '*.antt' \) -print) crates.txt

.PHONY: archive install dist
archive: $(archive)

$(archive): $(proved)
	for crate in $(crates); do (cd crates/$$crate && rt lib) || exit; done
	rm -rf $@ target/objects && mkdir -p target/objects
	cd target/objects && for crate in $(crates); do ar x ../../crates/$$crate/out/lib$$crate.a || exit; done
	ar rcs $@ target/objects/*.o

$(command): $(archive) $(shell find rust/src rust/build.rs rust/Cargo.toml -type f) $(wildcard .git/logs/HEAD)
	cargo build --offline --release --quiet --manifest-path rust/Cargo.toml
	touch $@

install: $(archive) $(command)
	install -d $(folder)/bin $(folder)/include $(folder)/lib/pkgconfig $(folder)/share/man/man1
	install -d $(folder)/share/bash-completion/completions $(folder)/share/yohrundel
	install -m 755 $(command) $(folder)/bin
	install -m 644 $(archive) $(folder)/lib
	install -m 644 include/yohrundel.h $(folder)/include
	sed 's/@version@/$(version)/' package/yohrundel.pc > $(folder)/lib/pkgconfig/yohrundel.pc
	package/man $(command) $(version) > $(folder)/share/man/man1/yohrundel.1
	$(command) completion bash > $(folder)/share/bash-completion/completions/yohrundel
	package/crate $(folder)/share/yohrundel/rust

dist: $(archive) $(command)
	@test -f gate.log || { echo 'there is no gate.log: run .ci/run first'; exit 1; }
	rm -rf target/dist && mkdir -p target/dist
	$(MAKE) install DESTDIR= PREFIX=$(CURDIR)/target/dist/$(name)
	cp README.md CHANGELOG.md target/dist/$(name)
	tail -n 1 gate.log > target/dist/$(name)/GATE
	cd target/dist/$(name) && find . -type f ! -name SHA256SUMS | LC_ALL=C sort | xargs sha256sum > SHA256SUMS
	tar -C target/dist --sort=name --owner=0 --group=0 -czf target/$(name).tar.gz $(name)
	cd target && sha256sum $(name).tar.gz > $(name).tar.gz.sha256
