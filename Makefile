# The commands of the README. Alone, `make` prints them.

.PHONY: help first-run try-run plugins deb dist image test

help:
	@echo 'make first-run   proves the program, builds it and runs it on the first script: 14 minutes on four quick cores (48 of processor'
	@echo '                 time), 24 to 31 on older ones, with an unproved run of the same sources after one or two'
	@echo 'make try-run     the unproved run alone, about three minutes of one core; leaves no program'
	@echo 'make plugins     each plugin of examples/plugins over its script, a second (after first-run)'
	@echo 'make deb         a Debian package, a minute (after first-run; as root)'
	@echo 'make dist        a tar of the same, with sums and verdicts, a minute (after first-run)'
	@echo 'make image       an image of the second scheduler, some minutes (after first-run; as root, with buildah)'
	@echo 'make test        the gate: every proof, wrong body, test and program; an hour or two (docs/GATE.md)'
	@echo 'tests/run        what is tried outside the gate; tests/run --list tells each'

# Proves and builds the program, and runs it on the first script.
first-run:
	@examples/first-run

# Runs the same sources on the first script before any proof: it proves nothing, and leaves no
# program.
try-run:
	@examples/first-run --unproved

# Runs each plugin of examples/plugins over its script, by the program that first-run built.
plugins:
	examples/plugins/try

# A Debian package of the program, its rules and the second scheduler; the same as a tar with sums
# and the prover's verdicts; and the second scheduler's image (as root, with buildah and
# debootstrap). Each stands in out/, made of the program that first-run built.
deb:
	tools/packages/deb

dist:
	tools/packages/dist

image:
	tools/packages/image

# The gate: what stands beside the proofs, every proof from nothing, every must-fail edit, every
# test and program.
test:
	.ci/run
