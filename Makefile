# make test: the names in the documents are looked up (tools/quotes), then the merge gate, then the wrong bodies of must-fail/
#   over the libraries that it has built, then tools/expand (tools/try_expand, which needs no Erlang), and then the transcripts,
#   the mistakes of upgrades and the rehearsals on its programs. Its last line is 'N passed, M failed'.
# make transcripts: plays the sessions of transcripts/ on the program, which it builds first (tools/transcripts);
#   make transcripts NAME=name plays one file of them. Its last line is 'N passed, M failed'.
# make rehearsals: plays the runs of rehearsals/ on `rehearse`, which it builds first (tools/rehearsals);
#   make rehearsals NAME=name plays one file of them. Its last line is 'N passed, M failed'.
# make mistakes: plays the mistakes, recipes and scripts of rehearsals/switch on `rehearse`, which it builds first
#   (tools/mistakes); make mistakes NAME=name plays one of them. Its last line is 'N passed, M failed, K not found yet'.
# make check: proves the crates alone, over what earlier checks kept, and tries no edit and no test: for the working day.
# make edits: sees that the prover refuses each wrong body, those of edits/ too, many in one check (tools/edits), over the libraries of
#   a gate that has run in this checkout; make edits CRATE=name tries one crate's. Its last line is 'N passed, M failed'.
# make trials: builds and runs the tests in trials/, which are too dear to prove at each gate (tools/trials);
#   make trials NAME=name runs one crate of them. Its last line is 'N passed, M failed'.
# make relnode, make rehearse: proves and builds a program, and leaves it at crates/relnode/out/relnode or
#   crates/rehearse/out/rehearse.
# make quick: builds both programs without proof, at full speed, and leaves them at out/quick/relnode and out/quick/rehearse (tools/quick).
# make demo: a session of relnode on the example tree, by the program of make quick, which is built first where it isn't there (tools/demo).
# make rehearse-demo: the report of an upgrade with two mistakes, likewise.
# make try-expand: plays tools/expand, which expands macros, includes and records of a release (tools/try_expand).
# The kit's rt, by a tool that keeps what rt asks again and again of crates.txt, and reckons the memory of proofs by what they took;
# RT=rt is the kit's alone.
RT ?= $(CURDIR)/tools/rt

.PHONY: test transcripts rehearsals mistakes check edits trials quick demo rehearse-demo try-expand relnode rehearse

test:
	@tools/quotes
	@$(RT) ci
	@tools/edits --gate
	@tools/try_expand
	@tools/transcripts
	@tools/mistakes
	@tools/rehearsals

transcripts: relnode
	@tools/transcripts $(NAME)

rehearsals: rehearse
	@tools/rehearsals $(NAME)

mistakes: rehearse
	@tools/mistakes $(NAME)

check:
	@$(RT) all check

edits:
	@tools/edits $(CRATE)

trials:
	@tools/trials $(NAME)

relnode:
	@cd crates/relnode && $(RT) run -- data/tree Z < /dev/null > /dev/null
	@echo crates/relnode/out/relnode

rehearse:
	@cd crates/rehearse && $(RT) run -- ../relnode/data/tree A O > /dev/null
	@echo crates/rehearse/out/rehearse

quick:
	@tools/quick

demo:
	@tools/demo

rehearse-demo:
	@tools/demo rehearse

try-expand:
	@tools/try_expand
