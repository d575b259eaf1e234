# The two commands of the README, and what hosts and comparisons need.
.PHONY: run test cardrun survey hosts compare bench

# How many scripts each comparison runs, the first seed, and whether the slowest time base is run out (100,000,000 ticks).
SCRIPTS = 3000
SEED = 1
LONG = --long

run: cardrun
	@target/bin/cardrun < crates/cardrun/stdin

test:
	@tests/all

# Prove and build a program; what is proved already is taken over. rt runs it once, on no input.
cardrun survey:
	@mkdir -p target/bin
	@cd crates/$@ && rt run < /dev/null > ../../target/$@.out 2> ../../target/$@.log || { cat ../../target/$@.log; exit 1; }
	@cp crates/$@/out/$@ target/bin/$@

# The host package, under target/hosts.
hosts:
	@$(MAKE) -s -C hosts/c

# Random scripts through the proved runner and the C model: by the programs, then other scripts by the libraries, with outputs
# of every size.
compare: cardrun hosts
	@$(MAKE) -s -C bench/model
	@bench/fuzz/compare --shrink $(LONG) -n $(SCRIPTS) -s $(SEED) target/bin/cardrun bench/model/modelrun
	@bench/fuzz/compare --shrink -n $(SCRIPTS) -s $$(($(SEED) + $(SCRIPTS))) target/hosts/libcard.so bench/model/libmodel.so

# Ticks a second of the proved runner and of the C model.
bench: hosts
	@$(MAKE) -s -C bench/model
	@bench/run
