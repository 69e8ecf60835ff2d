# make run: the main job on an example that ships. make test: the gate.
.PHONY: run test

run:
	@./run

test:
	@.ci/run
