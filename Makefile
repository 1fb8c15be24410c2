# The commands of this repository.
.PHONY: example shop market gate

# Proves and builds dictd, and runs the lookups of examples/first.
example:
	cd crates/dictd && rt run -- once "$(CURDIR)/examples/first/colours.sql" 1 < "$(CURDIR)/examples/first/requests.txt"

# The same with the three dictionaries of examples/shop.
shop:
	cd crates/dictd && rt run -- once "$(CURDIR)/examples/shop/shop.sql" 1 < "$(CURDIR)/examples/shop/requests.txt"

# The same with the three layouts of examples/market, and then its two clients, which keep dictd as their child.
market:
	cd crates/dictd && rt run -- once /dev/null 1 < /dev/null
	cd examples/market && ../../crates/dictd/out/dictd once market.sql 1 < requests.txt
	cd examples/market && ./client.py ../../crates/dictd/out/dictd market.sql
	cd examples/market && ./client.sh ../../crates/dictd/out/dictd market.sql

# Runs the gate: every proof, must-fail edit, test and stored run.
gate:
	bash .ci/run
