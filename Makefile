SHELL := bash
.SHELLFLAGS := -o pipefail -c
TRACE ?= examples/acks_all.trace
PORT ?= 9092
TOPICS ?= orders 3 0
LANES ?= 4
CONNECTIONS ?= 100
.PHONY: run serve build test check fmt edits bench clients compare fuzz definitions workers lanes memory explain clean

# Plays TRACE, on WORKERS threads where they are given, and shows what is printed, in bytes and in words. It is a build that
# proves nothing, and takes a minute or two: proving the program takes longer than a first look should. `make build` proves it.
run:
	@(cd crates/kafka_room && rt try -- replay $(if $(WORKERS),--workers $(WORKERS)) < $(abspath $(TRACE))) | \
		python3 -B -m model.words.explain --printed - $(TRACE)

# Serves TOPICS on PORT to Kafka clients, by a build that proves nothing, for a day at most. A topic is NAME PARTITIONS FOLLOWERS, or
# NAME PARTITIONS FOLLOWERS MIN with the least number of its in-sync replicas, and commas stand between several. What the program writes
# is shown only once it has ended, so what it would say at its start is said here.
serve:
	@if python3 -B -m clients.listens $(PORT); then echo "Another program listens on 127.0.0.1:$(PORT): name another PORT." >&2; exit 1; fi
	@echo "Compiles for a minute or two, and then listens on 127.0.0.1:$(PORT), with $(LANES) lanes: so many connections are served at a time."
	@echo "It ends after $(CONNECTIONS) connections, and prints what it served. Control-C stops it before that, and then it prints nothing."
	@python3 -B -m clients.listens $(PORT) --wait & trap "kill $$! 2> /dev/null" EXIT; cd crates/kafka_room && \
		{ tr , '\n' <<< '$(TOPICS)' | sed -E 's/^ +| +$$//g; s/^/topic /'; echo end; } | \
		rt try --seconds 86400 -- serve --port $(PORT) --lanes $(LANES) --connections $(CONNECTIONS)

# The proved programs stay as crates/kafka_room/out/kafka_room and crates/kafka_follower/out/kafka_follower.
build:
	cd crates/kafka_room && rt run -- --version
	cd crates/kafka_follower && rt run -- --version

# The gate, as it is run before a merge.
test:
	.ci/run

# For the day's work: one crate, or with no CRATE every crate with its tests, the edits that must fail left out.
check:
	$(if $(CRATE),cd crates/$(CRATE) && rt check,rt all test)

fmt:
	for crate in crates/*/; do (cd $$crate && rt fmt) || exit 1; done

# Tries the wrong bodies of edits/CRATE beside those that the gate tries, or with no CRATE those of all crates.
edits:
	python3 -B edits/try.py $(CRATE)

# Times the program that `make build` leaves, and then the parts. bench/README.md and crates/bench_parts/README.md say on what.
bench:
	python3 -B -m bench.run
	cd crates/bench_parts && rt run -- measure

# Lets real Kafka clients speak to `serve` of the program that `make build` leaves. clients/README.md says which, and what is checked.
clients:
	python3 -B -m clients.check --slow

# Plays random traces by the model and by the program that `make build` leaves: 1,000 of each kind, or COUNT, or of one KIND. With
# UNPROVED=yes it is played by a build that proves nothing.
compare:
	python3 -B -m model.checks.compare $(if $(COUNT),--count $(COUNT)) $(if $(KIND),--kind $(KIND)) $(if $(UNPROVED),--unproved)

# Plays changed texts by the model and by the program that `make build` leaves, 20,000 or COUNT, and sends changed streams to its
# `serve`, over 2,000 connections or LINKS.
fuzz:
	python3 -B -m model.checks.fuzz_traces $(if $(COUNT),--count $(COUNT))
	python3 -B -m model.checks.fuzz_links $(if $(LINKS),--count $(LINKS))

# Runs the definitions, transcribed, on random traces and on small changes of their accounts: 100 traces, or COUNT.
definitions:
	python3 -B -m model.checks.check_definitions $(COUNT)

# Plays random traces on 1, 2, 3 and 16 workers, and checks the account of each run: 200 traces, or COUNT. With UNPROVED=yes it is
# played by a build that proves nothing; else the proved program is built first.
workers:
	$(if $(UNPROVED),,cd crates/tell_account && rt run -- 1 < stdin > /dev/null)
	python3 -B -m model.checks.check_workers $(if $(COUNT),--count $(COUNT)) $(if $(UNPROVED),--unproved)

# Serves random links on 1, 2, 3 and 16 lanes, in memory, and checks the account of each run: 50 texts, or COUNT.
lanes:
	cd crates/tell_account && rt run -- 1 < stdin > /dev/null
	python3 -B -m model.checks.check_lanes $(if $(COUNT),--count $(COUNT))

# Refuses each allocation of some runs in turn, of the program that `make build` leaves and of tell_account. It takes a C compiler.
memory:
	cd crates/tell_account && rt run -- 1 < stdin > /dev/null
	python3 -B -m model.checks.refused_memory --teller crates/tell_account/out/tell_account

# Tells TRACE and what the model prints of it in words.
explain:
	@python3 -B -m model.words.explain $(TRACE)

clean:
	rm -rf out crates/*/out
