# One command for each habit; `make help` lists them. PYTHON is Debian's, which has Debian's packages. PROGRAM is the built program
# that the tests run, if it is not the one of this repository.
PYTHON ?= /usr/bin/python3
export PYTHON
# The crates whose programs `check-all` runs beside the product's.
TEST_PROGRAMS = test_inputs test_allocations
# Suites that can be run one by one.
SUITES = own-tests examples pages rows live-callers clients/python floats real-programs dap-emacs compare compare-text compare-reasons \
	compare-serve-reasons serve-threads check-history refuse-allocations hostile

.PHONY: help try build build-tests deb gate check check-all check-ci check-containers check-deb bench fmt verdict plant attacks $(SUITES)

help: ## what each target does
	@sed -n 's/^\([a-z-]*\):.*## \(.*\)/\1\t\2/p' $(MAKEFILE_LIST) | expand -t 18
	@echo "A suite of tests by its name, as in make compare: $(SUITES)" | fold -s -w 120

try: ## serve the first run of examples/ by the program before any proof; two minutes, and then at once
	tools/try

build: ## prove the program's crates and build it, 35 minutes or more from nothing; rt goes on from what it keeps
	tools/build --keep

build-tests: ## prove and build the programs that only check-all runs, after make build
	set -e; for name in $(TEST_PROGRAMS); do (cd crates/$$name && rt run </dev/null >/dev/null); done

deb: ## the Debian package out/feulgama_VERSION_amd64.deb of the built program, a minute; names packages that are missing
	PROGRAM=$(PROGRAM) packaging/build-deb

gate: ## what a change has to pass: check-ci, and then all proofs (rt ci), 55 to 85 minutes
	.ci/run

check: ## quick tests of the built program: examples, rows, clients; under ten minutes
	tests/run all --quick

check-all: ## every test outside the gate but check-containers and check-deb, with one summary; an hour
	tests/run all

check-ci: ## what needs no built program: edits, lists, links, versions, layout, types, unit tests; two to five minutes
	@tests/run check-ci

check-containers: ## feulgama-oci and the containerd shim under their hosts: as root, minutes; names packages that are missing
	clients/oci/test/run $(if $(PROGRAM),--program $(PROGRAM))
	clients/containerd/test/run $(if $(PROGRAM),--program $(PROGRAM))

check-deb: ## the Debian package, installed and removed among Debian's: as root, minutes; names packages that are missing
	packaging/test/run $(if $(PROGRAM),--program $(PROGRAM))

bench: ## the speed of the built program beside other engines (docs/BENCHMARKS.md), minutes
	$(PYTHON) bench/programs.py $(PROGRAM)

# Asserts that a crate is named.
named = $(if $(NAME),,$(error NAME=.. names the crate))

fmt: ## lay out a crate, NAME=.., and say which of its lines are too long
	$(named)cd crates/$(NAME) && rt fmt
	tools/wrap --say

verdict: ## prove a crate, NAME=.., from nothing, with its tests and the libraries below
	$(named)cd crates/$(NAME) && rt verdict

plant: ## the wrong bodies that a contract lets through: NAME=crate WORD=function
	$(named)$(if $(WORD),,$(error WORD=.. names the function))cd crates/$(NAME) && rt plant --only $(WORD)

attacks: ## try the attacks on a crate, NAME=.., or on all; minutes each
	tools/attacks $(NAME)

$(SUITES):
	tests/run all $@
