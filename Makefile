# make demo    runs the main job, in a way that a person can follow
# make test    proves everything and passes all tests; the last line is 'N passed, 0 failed'
# make memory  searches a core of the waiting program for keys
# make bench   measures sealing beside OpenSSL and libsodium
.PHONY: demo test memory bench

demo:
	@bash demo/seal.sh
	@bash demo/changes.sh

test:
	@bash tests/all.sh

memory:
	@command -v gcore > /dev/null || { apt-get update -qq && apt-get install -qq -y gdb; }
	@python3 tests/memory.py "$$(bash tests/program.sh store)"

bench:
	@bash bench/run.sh
