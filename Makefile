# `make demo` runs the proved program on a store with a user, on two sessions and on a message, `make serve` has it serve mail programs on
# this machine, `make test` is the gate, `make wrong-bodies` the wrong bodies that the gate leaves out. Each builds what isn't built. They want the command `rt` on the PATH, and Python.
program = crates/mailstored/out/mailstored
sources = crates.txt $(shell find crates -path '*/out' -prune -o \( -name '*.rt' -o -name '*.antt' \) -print)
store = demo/store

# Where `make serve` listens, and the store that it serves, which stays.
imap = 1430
lmtp = 2430
served = demo/served
rounds = 1000000000000

.PHONY: demo serve test wrong-bodies

demo: $(program)
	@rm -rf $(store) && mkdir $(store)
	@echo '# mailstored $(store) init'
	@$(program) $(store) init
	@echo '# mailstored $(store) adduser alice pw'
	@$(program) $(store) adduser alice pw
	@echo '# mailstored $(store) script < demo/sessions'
	@$(program) $(store) script < demo/sessions
	@echo '# mailstored $(store) tables'
	@$(program) $(store) tables
	@echo '# mailstored $(store) canon < demo/message'
	@$(program) $(store) canon < demo/message

serve: $(program)
	@mkdir -p $(served)
	@if [ ! -s $(served)/log0 ]; then $(program) $(served) init && $(program) $(served) adduser demo demo; fi
	@echo 'IMAP on 127.0.0.1:$(imap), LMTP on 127.0.0.1:$(lmtp); user demo, password demo; the store is $(served). Ctrl-C ends it. Try:'
	@echo '    curl -u demo:demo -T demo/message imap://127.0.0.1:$(imap)/INBOX'
	@echo "    curl -u demo:demo -X 'STATUS INBOX (MESSAGES UIDNEXT)' imap://127.0.0.1:$(imap)/"
	@$(program) $(served) serve $(rounds) $(imap) $(lmtp)

$(program): $(sources)
	@echo 'proving and building the program: minutes the first time' >&2
	@tools/build mailstored >&2
	@touch $(program)

test:
	@bash .ci/run

wrong-bodies:
	@tools/wrong-bodies
