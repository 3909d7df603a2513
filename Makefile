# run: adds up the sample lines; test: the whole gate; fmt: the layout of every file.
.PHONY: run test fmt

run:
	cd crates/addup && rt run < stdin

test:
	.ci/run

fmt:
	for crate in crates/*; do (cd $$crate && rt fmt) || exit 1; done
