.PHONY: demo test programs peer compare bench

# How many fresh cases `make compare` plays, and from which seed: the clock's, unless one is given.
N = 1000
SEED = $(shell date +%s%N)

# Proves and builds the programs, plays the built-in star, lays a hall of sixty cabinets (the whole plan is in
# target/hall.plan), plays a script on it, and looks for rings in two tables.
demo: programs
	target/bin/run
	target/bin/lay examples/hall.cables > target/hall.plan
	grep -E '^(switches|root|road 0 59) ' target/hall.plan
	target/bin/hall_run examples/hall.cables examples/hall.script > target/hall.run
	head -n 5 target/hall.run
	grep -c '^came' target/hall.run
	target/bin/rings examples/star.table
	! target/bin/rings examples/ring-of-four.table

test:
	bash .ci/run

# Proves and builds each program, runs it on its own example, and puts it into target/bin.
programs:
	mkdir -p target/bin
	cd crates/run && rt run > /dev/null
	cd crates/lay && rt run -- data/star.cables > /dev/null
	cd crates/hall_run && rt run -- data/star.cables data/star.script > /dev/null
	cd crates/rings && rt run -- data/star.table > /dev/null
	for p in run lay hall_run rings; do cp crates/$$p/out/$$p target/bin/ || exit 1; done

# The second program, in Rust.
peer:
	cargo build --release --quiet --offline --locked --manifest-path peer/Cargo.toml --target-dir peer/target

# The programs under the names by which the peer calls them.
target/played: programs
	mkdir -p target/played
	cp target/bin/lay target/bin/rings target/played/
	cp target/bin/hall_run target/played/run

# Plays fresh cases through the proved programs and through the peer.
compare: peer target/played
	peer/target/release/peer compare target/played $(SEED) $(N)

# Times the proved programs and the peer; docs/BENCHMARKS.md has the figures.
bench: peer target/played
	peer/target/release/peer bench target/played
