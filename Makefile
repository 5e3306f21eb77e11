# The commands of README.md. Each is a script under scripts/, or a line over the program amsulfezd, which say on one line what
# they lack. Variables on the command line reach them through the environment. `make help` prints what stands after each ##,
# variables in brackets first.
.DEFAULT_GOAL := help
.PHONY: help test replay explain heard counts picture view import export simulate install watchdog compare speed figures

# The program, the trace that is named or example 12, a range of its entries, and the settings of an import.
DESK = bash scripts/amsulfezd.sh
TRACED = "$${TRACE:-traces/example12.trace}"
RANGE = $${FROM:+--from "$$FROM"} $${TO:+--to "$$TO"}
SETTINGS = $${ADDRESS:+--address "$$ADDRESS"} $${BAUD:+--baud "$$BAUD"} $${SLOT:+--slot "$$SLOT"} \
	$${ROTATION:+--rotation "$$ROTATION"} $${GAP:+--gap "$$GAP"} $${HSA:+--hsa "$$HSA"} $${RETRY:+--retry "$$RETRY"} \
	$${TSDR:+--tsdr "$$TSDR"} $${EDITION:+--edition "$$EDITION"}
# into FOLDER,ENDING: the shell's $out is the file that OUT names, else one in target/FOLDER with the trace's name.
into = out=$${OUT:-target/$(1)/$$(basename $(TRACED) | sed 's/\.[^.]*$$//').$(2)}; [ -n "$$OUT" ] || mkdir -p target/$(1);

help: ## prints this list
	@awk -F ': ## ' '/^[a-z]+: ## / { \
		command = "make " $$1; says = $$2; \
		while (match(says, /^\[[^]]*\] /)) { command = command " " substr(says, 1, RLENGTH - 1); says = substr(says, RLENGTH + 1) } \
		if (length(command) > 44) { print command; command = "" } \
		printf "%-44s %s\n", command, says }' Makefile

test: ## [RT_JOBS=n] [SEED=n] [TRACES=m] the gate: checks, proofs from nothing, must-fail edits, comparisons with Rust, hosts
	@bash scripts/test.sh

replay: ## [TRACE=file] replays a trace with the proved library: answers as hexadecimal digits
	@$(DESK) replay $(TRACED)

explain: ## [TRACE=file] [FROM=n] [TO=m] the same answers in words, a line for each entry
	@$(DESK) explain $(TRACED) $(RANGE)

heard: ## [TRACE=file] who was heard, and when, as the proved library gives it
	@$(DESK) heard $(TRACED)

counts: ## [TRACE=file] how often the station claimed the token, removed a neighbour and met its own address
	@$(DESK) counts $(TRACED)

picture: ## [TRACE=file] [OUT=file] [FROM=n] [TO=m] [HEARD=1] the same as a picture that any browser opens
	@$(call into,pictures,svg) $(DESK) picture $(TRACED) $(RANGE) $${HEARD:+--heard} -o "$$out" && echo "$$out"

view: ## [TRACE=file] [OUT=file] the same as a page for a browser: timeline, table, search
	@$(call into,pages,html) $(DESK) view $(TRACED) -o "$$out" && echo "$$out"

import: ## [CAPTURE=file] [OUT=file] [ADDRESS=n] [BAUD=n] [SLOT=n] [..] makes a trace of a capture's text or a pcap file
	@TRACE=$${CAPTURE:?names no capture}; $(call into,captures,trace) $(DESK) import "$$CAPTURE" $(SETTINGS) -o "$$out" && echo "$$out"

export: ## [TRACE=file] [OUT=file] the text of a bus monitor that a trace gives; a pcap file or a table by the ending of OUT
	@$(call into,captures,capture) $(DESK) export $(TRACED) -o "$$out" && echo "$$out"

simulate: ## [SETUP=file] [OUT=folder] [FROM=us] [TO=us] several loggers on one simulated bus: who got the token when, traces, a picture
	@setup=$${SETUP:-traces/simulations/two-loggers.setup}; $(DESK) simulate "$$setup" $(RANGE) -o "$${OUT:-target/simulations/$$(basename "$$setup" .setup)}"

install: ## [PREFIX=folder] the program amsulfezd, which the lines above call, its manual page and completion
	@bash scripts/install.sh

watchdog: ## [MS=n] how the two watchdog factors of n milliseconds come about, as the proved calls give them
	@bash scripts/watchdog.sh

compare: ## [SEED=n] [COUNT=m] m generated traces of seed n through the proved library and the published Rust
	@bash scripts/compare_traces.sh

speed: ## [ENTRIES=n] entries a second of both on one long trace
	@bash scripts/speed.sh

figures: ## the tables made from the sources: docs/CRATES.md, README.md, docs/FUNCTIONS.md, docs/EDITS.md
	@python3 scripts/figures.py && python3 scripts/functions.py && python3 scripts/edits.py
