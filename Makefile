# make        builds ./osb-broker: proves the crates that it stands on, and links it
# make run    builds it and serves $(ADDRESS) with the settings of examples/settings.json, over the database
#             osb-broker.db in the working folder
# make try    serves the same settings there without a proof, for a first look; its records go with it
# make test   is the whole gate: every proof from nothing, edits that must be refused, and then the built
#             program tried from outside
# make package
#             builds it and makes a Debian package of it
# make image  builds it and makes a container image of it, with podman
# make edits  tries only those of tests/edits.py, over the libraries that are there, and takes no weak one
# make must-fail
#             gives the wrong bodies of tests/must-fail.txt to the toolkit's own judge, rt must-fail; no part of the gate
# make first  tries what takes seconds
# make quick  tries what the changes since the last commit that passed may break, within 20 minutes
# make green  runs the gate for the newest commit in a clean clone, and notes that commit if it passes

RT ?= rt
export RT
# Nothing is left beside the scripts.
export PYTHONDONTWRITEBYTECODE = 1
ADDRESS ?= 127.0.0.1:8080

.PHONY: all run try package image test tried edits must-fail first quick green clean FORCE

all: osb-broker

osb-broker: FORCE
	@python3 tools/build.py

run: osb-broker
	./osb-broker serve --settings examples/settings.json --database osb-broker.db --listen $(ADDRESS)

try:
	@python3 tools/try.py $(ADDRESS)

package: osb-broker
	@packaging/package.sh ./osb-broker

image: osb-broker
	@packaging/image.sh ./osb-broker

test:
	@sh tests/needs.sh
	@python3 tests/gate.py

# Every proof from nothing; and the program that rt ci linked, tried from outside.
tried:
	python3 tools/build.py --linked-by $(RT) ci
	python3 tests/outside.py ./osb-broker

edits:
	python3 tests/edits.py --strict

must-fail:
	@python3 tools/must_fail.py

first:
	@python3 tests/first.py

quick:
	@python3 tools/quick.py

green:
	@python3 tools/green.py

clean:
	rm -rf osb-broker crates/*/out
