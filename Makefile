# The program's main job on the example that is shipped with it, and the gate.
.PHONY: run test

run:
	cd crates/fitout && rt run -- "$(CURDIR)/crates/fitout/data/netlist.blif" "$(CURDIR)/crates/fitout/data/delays.tlv"

test:
	bash .ci/run
