# `make` proves the two programs, a line a crate, and shows the board of a sample night and how its listing begins, `make test` is the gate, `make lib` writes the C library
# (crates/capi/out/libcapi.a for include/pelluvion.h), `make bench` counts what it costs beside plain C.
.PHONY: all test lib bench

all:
	@python3 prove.py board listing
	@echo && echo "The board of samples/night.sheet:" && ./run.sh board < samples/night.sheet
	@echo && echo "Its listing begins:" && ./run.sh listing < samples/night.sheet | head -12

test:
	bash .ci/run

lib:
	cd crates/capi && rt lib

bench: lib
	python3 bench/run.py crates/capi/out/libcapi.a
