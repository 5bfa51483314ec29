# make            prove program and library, and build the command: the proved program prints the table of the shipped page set as soon as it is
#                 proved, and at the end the command does, with names; there is a line for each crate as it is proved
# make install    put the command, the header, the library with its pkg-config file, the manual page and the completions below PREFIX, in DESTDIR
# make uninstall  remove exactly these files
# make libraries  the library, and beside it the one for ring 0, in target/staticlib (docs/EMBEDDING.md)
# make dist       an archive of the same with the documents and a file of sums, tried out from an empty folder; the same bytes each time
# make deb        a Debian package of the same, in target/deb (it wants dpkg-deb)
# make proved     print what is proved
# make test       the whole gate: proofs from nothing, must-fail edits, programs, and the tests in tests/
# make bench      image, build and lookups against the best C that we can write, by gcc and by clang, as ratios of instructions and of time over six
#                 link orders; build and lookups by the Rust crate against the same calls from C; and the nearest bit
# make bench-rust against the Rust too, with overflow checks and without; OPENVMM_CVM_CPUID names its folder (differential/README.md)
#
# SNP_CPUID_LIB=FOLDER takes libsnp_cpuid.a from there, and the Rattle kit is not needed: nothing is proved then. It must be the library that was
# proved at this commit, by its sha256 (install/library.sha256); SNP_CPUID_SUM=SUM takes the one with that sum, as one of other options of a compiler.
.PHONY: all given-sum command stage staged install uninstall libraries ring0 dist deb proved test bench bench-rust clean

.DEFAULT_GOAL = all
# the manual page does not depend on the width of a terminal
unexport COLUMNS
PREFIX = /usr/local
VERSION := $(shell sed -n 's/^version = "\(.*\)"/\1/p' rust/Cargo.toml)
# the day of the version, which every file of the archive has
DAY := $(shell sed -n 's/^\#\# .* (\([0-9-]*\))$$/\1/p' CHANGELOG.md | sed 1q)
PAGES = tests/data/epyc-milan.pages
COMMAND = target/rust/release/snp-cpuid
STAGE = target/stage
SMOKE = install/smoke
ARCHIVE = snp-cpuid-$(VERSION)-x86_64-linux
# the command runs on any x86-64 Linux, whatever C library stands there
STATIC = -C target-feature=+crt-static

# what an installation has, below PREFIX
INSTALLED = bin/snp-cpuid include/snp_cpuid.h lib/libsnp_cpuid.a lib/pkgconfig/snp_cpuid.pc share/man/man1/snp-cpuid.1 \
    share/bash-completion/completions/snp-cpuid share/zsh/site-functions/_snp-cpuid share/fish/vendor_completions.d/snp-cpuid.fish
DOCUMENTS = CHANGELOG.md NOTICE docs/COMMAND.md docs/DIFFERENCES.md docs/EMBEDDING.md docs/OPENHCL.md install/example.c examples/exits.c $(PAGES)

found = $(shell command -v $(1))
kit = $(if $(call found,rt),,$(error no Rattle kit: 'rt' is not on the PATH, so nothing can be proved. With a built library, SNP_CPUID_LIB=FOLDER \
    with libsnp_cpuid.a, 'make', 'make install' and 'make dist' work without it))
cargo = $(if $(call found,cargo),,$(error no 'cargo', which builds the command: Rust 1.85 or newer, by rustup or of Debian 13; Debian 12's is too \
    old. From C, include/snp_cpuid.h and libsnp_cpuid.a are enough))

ifdef SNP_CPUID_LIB
LIBRARY = $(SNP_CPUID_LIB)/libsnp_cpuid.a
$(LIBRARY):
	$(error there is no $(LIBRARY), where SNP_CPUID_LIB says that it is)
given-sum: $(LIBRARY)
	@$(if $(SNP_CPUID_SUM),echo '$(SNP_CPUID_SUM)  $<' | sha256sum --check --status,install/sum $<) || { \
	    echo 'so it is not the library that was proved at this commit; SNP_CPUID_SUM=SUM takes the one with another sum' >&2; exit 1; }
command: given-sum
all: stage
else
LIBRARY = target/staticlib/libsnp_cpuid.a
# The program's crates are proved first, and no crate twice. What the proved program writes is what the command writes.
all:
	$(kit)@install/first-table $(PAGES)
	@$(MAKE) --no-print-directory $(LIBRARY)
	@echo 'proved: the library is $(LIBRARY); cargo builds the command'
	@$(MAKE) --no-print-directory stage
	@$(COMMAND) image $(PAGES) -o - | cmp - target/first.image
endif
	@$(COMMAND) table $(PAGES)

proved:
	@tests/gate/proved

test:
	$(kit)@tests/run

clean:
	rm -rf target crates/*/out

# the library for C and Rust, made again after an edit of any source, specification or proof; a folder is newer where a file of it went
target/staticlib/libsnp_cpuid.a: crates.txt $(shell find crates/*/src crates/*/specs crates/*/proofs 2>/dev/null) \
    include/snp_cpuid.h install/libraries
	$(kit)@install/libraries

# cargo tells what is to be built again
command: $(LIBRARY)
	$(cargo)@cd rust && SNP_CPUID_LIB=$(abspath $(dir $(LIBRARY))) RUSTFLAGS='$(STATIC)' \
	    cargo build --offline --quiet --release --target-dir ../target/rust

# an installation, in a folder of its own
stage: command
	@rm -rf $(STAGE)
	@for file in $(INSTALLED); do mkdir -p $(STAGE)/$${file%/*}; done
	@cp $(COMMAND) $(STAGE)/bin/snp-cpuid
	@cp include/snp_cpuid.h $(STAGE)/include
	@cp $(LIBRARY) $(STAGE)/lib
	@sed 's/@VERSION@/$(VERSION)/' install/snp_cpuid.pc.in > $(STAGE)/lib/pkgconfig/snp_cpuid.pc
	@$(COMMAND) man -o $(STAGE)/share/man/man1/snp-cpuid.1
	@$(COMMAND) completion bash -o $(STAGE)/share/bash-completion/completions/snp-cpuid
	@$(COMMAND) completion zsh -o $(STAGE)/share/zsh/site-functions/_snp-cpuid
	@$(COMMAND) completion fish -o $(STAGE)/share/fish/vendor_completions.d/snp-cpuid.fish

# root often has no cargo on the PATH: then what was staged before is installed
staged:
	$(if $(wildcard $(STAGE)/bin/snp-cpuid),,$(cargo))@:

install: $(if $(call found,cargo),stage,staged)
	@for file in $(INSTALLED); do \
	    case $$file in bin/*) mode=755 ;; *) mode=644 ;; esac; \
	    install -D -m $$mode $(STAGE)/$$file '$(DESTDIR)$(PREFIX)'/$$file || exit 1; \
	done

uninstall:
	@for file in $(INSTALLED); do rm -f '$(DESTDIR)$(PREFIX)'/$$file || exit 1; done

libraries ring0: target/staticlib/libsnp_cpuid.a
	$(kit)@:

dist: stage
	@rm -rf target/dist && mkdir -p target/dist/$(ARCHIVE)/share/doc/snp-cpuid
	@cp -r $(STAGE)/. install/README.md target/dist/$(ARCHIVE)
	@mkdir target/dist/$(ARCHIVE)/lib/ring0
	@cp $(dir $(LIBRARY))ring0/libsnp_cpuid.a target/dist/$(ARCHIVE)/lib/ring0
	@cp $(DOCUMENTS) target/dist/$(ARCHIVE)/share/doc/snp-cpuid
	@mkdir -p target/dist/$(ARCHIVE)/share/snp-cpuid/rust
	@cp -r rust/Cargo.toml rust/build.rs rust/src target/dist/$(ARCHIVE)/share/snp-cpuid/rust
	@rm -r target/dist/$(ARCHIVE)/share/snp-cpuid/rust/src/bin
	@SNP_CPUID_LIB=$(dir $(LIBRARY)) install/crate target/crate > target/crate.log
	@cp target/crate/*.crate target/dist/$(ARCHIVE)/share/snp-cpuid
	@cp -r differential/replacement target/dist/$(ARCHIVE)/share/snp-cpuid/snp_cvm_cpuid
	@cd target/dist/$(ARCHIVE) && find . -type f | sed 's,^\./,,' | LC_ALL=C sort | xargs sha256sum > ../SHA256SUMS && mv ../SHA256SUMS .
	@chmod -R u=rwX,go=rX target/dist/$(ARCHIVE)
	@tar -C target/dist --sort=name --mtime='$(DAY) 00:00Z' --owner=0 --group=0 --numeric-owner -cf - $(ARCHIVE) \
	    | gzip -9n > target/dist/$(ARCHIVE).tar.gz
	@cd target/dist && sha256sum $(ARCHIVE).tar.gz > $(ARCHIVE).tar.gz.sha256
	@$(SMOKE) target/dist/$(ARCHIVE).tar.gz
	@echo target/dist/$(ARCHIVE).tar.gz

deb: stage
	@mkdir -p target/deb && install/deb $(STAGE) $(VERSION) target/deb

bench: $(LIBRARY)
	@SNP_CPUID_LIB=$(abspath $(dir $(LIBRARY))) bench/run
	@echo
	@SNP_CPUID_LIB=$(abspath $(dir $(LIBRARY))) bench/nearest

# the Rust with each of its two profiles, as a library for the same driver
bench-rust: $(LIBRARY)
	@for profile in release unchecked; do \
	    (cd differential && cargo rustc --offline --quiet --profile $$profile -p oracle --crate-type staticlib --target-dir ../target/differential) \
	        || exit 1; \
	done
	@SNP_CPUID_LIB=$(abspath $(dir $(LIBRARY))) bench/run release unchecked
