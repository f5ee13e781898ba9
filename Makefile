# make demo    checks examples/watch, with the proved program if it is there, else with one that is built without its proofs; mgexplain is built beside it
# make test    does it behave? every test of behaviour, with the proved programs if they are there, else with programs that are built without proofs
# make prove   is it proved? every crate from nothing; leaves the proved programs in crates/NAME/out
# make audit   are the contracts strong enough? wrong bodies and wrong definitions, each of which has to be refused: those that the records in wrong/
#              don't have, and a sample of the others; ANEW=1 tries all. It goes over what make prove left
# make install puts the proved programs, the commands over files, man pages, completions and schemas under PREFIX, in DESTDIR where that is given. It
#              proves and builds nothing; NOT_PROVED=1 installs the programs that are built without proofs
# make uninstall takes away what make install put there
# make soak    what takes too long for every change: many inputs from several seeds, and a hundred runs of 10,000 calls; after make prove
# make bench   how time grows with the size of the input, and what is checked in a second; PART=runs for the parts that begin so; after make prove

.PHONY: demo test prove audit install uninstall soak bench

PREFIX = /usr/local
DESTDIR =
ANEW =
NOT_PROVED =

demo:
	@tools/why examples/watch/script.toml examples/watch/certificate.json > /dev/null & \
	tools/check examples/watch/script.toml examples/watch/certificate.json; status=$$?; wait; exit $$status
	@echo "next: tools/run examples/watch/script.toml examples/watch/certificate.json examples/watch/plan.toml" >&2

test:
	@tools/test

prove:
	@tools/prove

audit:
	@tools/audit $(if $(ANEW),--anew)

install:
	@tools/install $(if $(NOT_PROVED),--not-proved) "$(DESTDIR)$(PREFIX)"

uninstall:
	@tools/install --remove "$(DESTDIR)$(PREFIX)"

soak:
	for seed in 1 2 3; do tools/gate/bytes $$seed 3000 || exit 1; done
	tools/gate/explain --long
	tools/gate/load

bench:
	tools/bench $(PART)
