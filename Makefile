# Commands for contributors; `make` alone lists them, each with the time that it takes on four processors. The gate is
# `rt ci`, which .ci/run calls alone.
CRATES := $(sort $(notdir $(patsubst %/src,%,$(wildcard crates/*/src))))

help: ## [at once] lists the commands
	@awk -F ':.*## \\[|\\] ' '/^[a-z-]+:.*## \[/ { printf "  %-12s %-18s %s\n", $$1, $$2, $$3 }' $(firstword $(MAKEFILE_LIST))
try: named ## [1 min] runs the tests of CRATE=name without a proof
	@python3 tools/test.py $(CRATE)
test: ## [6 min] runs every test and example without a proof, and then those of `make lasts` and `make costs`
	@python3 tools/test.py && python3 tools/lasts.py && python3 tools/costs.py
check: ## [1 to 60 min] proves what changed, every crate, lowest first
	rt all check
fmt: ## [10 s] lays out every crate
	@for crate in $(CRATES); do (cd crates/$$crate && rt fmt) || exit 1; done
lint: ## [5 s] tests the style that rt does not, the marks of what must be believed, the claims and the map
	@status=0; for test in lint words claims map believe; do sh tools/$$test.sh || status=1; done; exit $$status
edits: ## [1 to 5 min each] tries the must-fail edits; CRATE=name for one crate
	rt must-fail $(CRATE)
plant: named ## [2 to 30 min] lists wrong bodies that the contracts of CRATE=name let through
	cd crates/$(CRATE) && rt plant
crate: named ## [at once] makes the folders of a new CRATE=name
	mkdir -p $(addprefix crates/$(CRATE)/,src specs proofs must-fail)
program: ## [1 to 60 min] proves, builds and tries the program, so that ./quaestor runs the proved one
	@QUAESTOR_PROVED=1 ./quaestor pipe --clock 100 < examples/first.http | cmp - examples/first.reply
run: ## [at once, or 1 min] runs the program over standard input: make run ARGS="pipe --clock 100"
	@./quaestor $(ARGS)
example: ## [at once, or 3 min] runs the examples and compares their output with the stored replies
	@sh tools/example.sh
lasts: ## [30 s] tries the server with clients that are silent, slow or many, and ends it
	@python3 tools/lasts.py
metrics: ## [20 s] compares the metrics and the access log of a server with what it was sent
	@python3 tools/metrics.py
dashboard: ## [2 min] draws docs/dashboard.svg, the panels of examples/grafana.json, from a real run
	@python3 tools/dashboard.py
hostile: ## [1 min] tries the server with a proxy that splits, delays, repeats and cuts, and with garbage; SECONDS=N
	@python3 tools/hostile.py $(if $(SECONDS),--seconds $(SECONDS))
faults: ## [1 min] refuses each allocation of a run in turn, and compares what is answered with a run without that
	@python3 tools/faults.py
soak: ## [30 min] writes at full speed over 1,000 ids, and compares the memory at the end with that at the beginning
	@python3 tools/soak.py
crash-test: ## [3 min] kills a server with a file 200 times under 64 writers, and tries full disks, refused calls and cuts
	@python3 tools/crash_test.py
costs: ## [20 s] compares what requests cost that would be dear if a call looked again at what it knows
	@python3 tools/costs.py
caches: ## [10 s] tries serve and read against each other, straight and through nginx and Varnish
	@python3 tools/caches.py
bench: ## [1 min] measures the server with wrk and prints a table
	@sh tools/bench.sh
ci: fmt lint ## [5 to 60 min] the gate, as a merge runs it, after the layout and the style
	rt ci
dist: ## [5 to 60 min] runs the gate and writes dist/, the proved program for those who have no toolchain
	@sh tools/dist.sh
verify-dist: ## [5 to 60 min] runs the gate and compares what it built with dist/; ANEW=1 proves all again
	@sh tools/dist.sh --verify $(if $(ANEW),--anew)
	@if command -v wasm-opt > /dev/null; then sh tools/wasm.sh --verify $(if $(ANEW),--anew); \
	else echo 'dist/client_web.wasm was not built again: wasm-opt is missing (apt-get install binaryen)' >&2; fi
wasm: ## [5 to 30 min] proves the clients' core for WebAssembly and writes dist/client_web.wasm
	@sh tools/wasm.sh
client: ## [at once] writes client/js/quaestor.js, the one file that a page loads, from client/src
	@node client/squeeze.mjs
client-test: ## [1 min] runs the client's tests in node: vectors, and random sessions against a server
	@sh tools/client_test.sh node
browser-test: ## [3 min] runs the client in headless Chromium, straight and through nginx and Varnish
	@sh tools/client_test.sh browser
shop: ## [at once] starts a server, the example's page and a cache, and prints the address
	@node examples/shop/start.mjs $(PORT)

named:
	@test -n "$(CRATE)" || { echo "say which: CRATE=name" >&2; exit 2; }
.PHONY: help try test check fmt lint edits plant crate program run example lasts metrics dashboard hostile faults soak crash-test costs caches bench ci dist verify-dist wasm client client-test browser-test shop named
