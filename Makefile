# What people use, in build/: the command velichundam, and for hosts the archive and the shared library.
#
# Needs the kit (rt), a C compiler and cargo; no network. VELICHUNDAM_LIB_DIR=FOLDER takes the archive that is in that folder, and then rt is not needed.
# A file in build/ is replaced only where its content has changed, and then by another file, so that programs that have it open keep the old one.

BUILD = build
products = $(BUILD)/velichundam $(BUILD)/libvelichundam.a $(BUILD)/libvelichundam.so
crate = crates/velichundam
archive = $(crate)/out/libvelichundam.a
lib = $(or $(VELICHUNDAM_LIB_DIR),$(crate)/out)
replace = cmp -s $@.new $@ && rm $@.new || mv -f $@.new $@

.PHONY: all check test bench clean always
.DELETE_ON_ERROR:

# The three of them.
all: $(products)

# The kit and the checksum of every source that a proof reads, written anew only where one has changed.
target/sources: always
	@mkdir -p $(@D)
	@rt version >$@.new && find crates.txt crates/*/src crates/*/specs crates/*/proofs -type f -exec sha256sum {} + >>$@.new
	@$(replace)

# The archive, where rt builds it: proves the crate and those below it. rt itself sees which have changed.
$(archive): target/sources
	cd $(crate) && rt lib

# The archive: that one, or the one in VELICHUNDAM_LIB_DIR.
$(BUILD)/libvelichundam.a: $(if $(VELICHUNDAM_LIB_DIR),,$(archive)) always
	@mkdir -p $(@D)
	@cp "$(lib)/libvelichundam.a" $@.new
	@$(replace)

# The shared library, with every call of the archive.
$(BUILD)/libvelichundam.so: $(BUILD)/libvelichundam.a Makefile
	$(CC) -shared $(LDFLAGS) -Wl,-soname,libvelichundam.so -Wl,-z,defs -Wl,--whole-archive $< -Wl,--no-whole-archive -o $@.new
	@$(replace)

# The command. cargo itself sees what has changed.
$(BUILD)/velichundam: $(BUILD)/libvelichundam.a always
	VELICHUNDAM_LIB_DIR="$$(cd "$(lib)" && pwd)" CARGO_TARGET_DIR="$(CURDIR)/target/cargo" \
	    cargo build --quiet --release --offline --locked --manifest-path command/Cargo.toml
	@cp target/cargo/release/velichundam $@.new
	@$(replace)

# The gate: the layout, every proof, every edit that must be refused, every test.
check:
	.ci/run

# The tests from outside.
test:
	tests/run

# The times of the calls.
bench:
	bench/run

# Removes what make has made in build/, and nothing else.
clean:
	rm -f $(products) $(products:=.new)
	@[ ! -d $(BUILD) ] || rmdir $(BUILD)
