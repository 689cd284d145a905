# make           proves the program and each crate below it with all processors (JOBS=2: with two), a line for each, and leaves it at bin/ssq
# make demo      runs a filter and a windowed count on fresh copies of their examples, in demo/
# make examples  runs each folder of examples/ in a fresh copy, and compares its sink files with those that it keeps
# make check     proves every crate, also those that the program does not use, but no tests
# make test      the whole gate: every proof, must-fail edit, test and program
# make clean     removes what was built
#
# It needs GNU make, Python 3.9, a POSIX shell and the Rattle toolchain (`rt`). What is proved stays in crates/*/out, so
# that a later make proves only what changed.

# Files and folders, so that one which went counts as a change too.
SOURCES := $(shell find crates/*/src crates/*/specs crates/*/proofs) crates.txt HANDLES

.PHONY: all demo examples test check clean

all: bin/ssq

# It is as old as the run that made it: a file that was changed meanwhile is newer.
bin/ssq: $(SOURCES)
	@mkdir -p bin && touch bin/began
	@tools/prove.py $(JOBS)
	@cp crates/ssq_main/out/ssq_main bin/ssq.new && touch -r bin/began bin/ssq.new
	@mv -f bin/ssq.new bin/ssq

demo: bin/ssq
	@rm -rf demo && mkdir demo && for example in first windows; do \
		cp -R examples/$$example demo/ && cd demo/$$example && rm -rf sink checkpoint && \
		cat query.sql *.jsonl && \
		echo "\$$ ssq $$(cat words)" && ../../bin/ssq $$(cat words) && \
		for file in checkpoint/sink/*; do echo "\$$ cat $$file"; cat "$$file"; done && \
		echo '$$ ssq show query.sql' && ../../bin/ssq show query.sql && \
		echo '$$ ssq status query.sql' && ../../bin/ssq status query.sql && \
		cd ../.. || exit 1; \
	done

# Each folder has a query, its logs, the words after `ssq` and the sink files that these give. One that fails stays in bin/example.
examples: bin/ssq
	@for example in examples/*/; do \
		rm -rf bin/example && cp -R "$$example" bin/example && rm -rf bin/example/checkpoint && \
		mkdir bin/example/wanted && mv bin/example/sink bin/example/wanted/ && \
		(cd bin/example && ../ssq $$(cat words) > told && diff -r wanted/sink checkpoint/sink) && echo "$$example gives what it keeps" || \
		{ echo "$$example does not give what it keeps: see bin/example"; exit 1; }; \
	done; rm -rf bin/example

check:
	@tools/prove.py --all $(JOBS)

test:
	@rt ci

clean:
	rm -rf bin demo crates/*/out
