# The commands of this repository in one place. Each target only calls scripts; CONTRIBUTING.md and docs/CI.md explain them.
#   make mutants CRATE=land_rules        one crate only
#   make bench LAND=/path/to/program     another program
SHELL := /bin/bash
CRATE ?=

.DEFAULT_GOAL := help
.PHONY: help build test gate docs mutants bench soak deb deploy

help: ## list these targets
	@sed -n 's/^\([a-z]*\): ## \(.*\)/make \1|\2/p' Makefile | while IFS='|' read -r name text; do printf '%-14s %s\n' "$$name" "$$text"; done

build: ## prove and build the program (./land --prove); 44 to 67 minutes on four cores from scratch, less if out/ has earlier proofs
	./land --prove

test: ## prove and run the tests (rt test in the crates that have them); builds the libraries below them first
	@for crate in tests_model tests_http tests_pool tests_store; do (cd "crates/$$crate" && rt test) || exit; done

gate: ## check everything (.ci/run): proofs from scratch, mutants, tests, release, docs; 68 minutes on four idle cores
	.ci/run

docs: ## lint README.md, CONTRIBUTING.md, CHANGELOG.md and docs/ (.ci/docs); a second
	.ci/docs

mutants: ## run the mutants outside the gate on the last commit (.ci/mutants, .ci/mutants-by-tests); hours, or CRATE=name
	.ci/mutants $(CRATE)
	.ci/mutants-by-tests $(CRATE)

bench: ## measure requests, opening and extracts (bench/*.py), as in docs/SPEED.md
	@./land talk --clock 0 < /dev/null
	@top=$(CURDIR); . .ci/source-hash; export LAND=$${LAND:-$$(fresh_program)}; \
	for name in service joins check extract; do echo "== bench/$$name.py"; bench/$$name.py || exit; done

soak: ## fuzz, kill and fill the disk of a running server (.ci/soak); 40 minutes
	.ci/soak

deb: ## build the Debian package of the released program, out/land_VERSION_amd64.deb; 4 seconds
	deploy/debian/build

deploy: ## test the gateway, the web page, backups and failover (.ci/deploy); installs Debian packages if run as root
	.ci/deploy
