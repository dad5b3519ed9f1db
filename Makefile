.PHONY: run build try web test format check edits soak manual bench dist install uninstall help

PREFIX ?= /usr/local

run: build ## Build the proved program as ./ebpf and run the first examples (the default)
	echo 'b700000005000000 9500000000000000' | ./ebpf hex
	./ebpf run --workers 2 --maps < examples/atomic-update.run

build: ## Prove the program and build it as ./ebpf, printing meanwhile how far that is
	tools/prove bpf_run
	cp crates/bpf_run/out/bpf_run ebpf

try: ## Build ./ebpf-try in minutes: the same sources without their proofs
	tools/unproved

web: build ## Make the page that steps the proved program in a browser: out/web/index.html
	tools/web

# rt ci sets aside what was built before, and leaves the program that it proved, built and ran: the cases take that one.
test: ## The whole gate: the layout of the sources, every proof, every must-fail edit, every test, then the cases, refused memory, failing reads and writes, and damaged input and hosts
	tests/format
	rt ci
	install -m 755 crates/bpf_run/out/bpf_run ebpf
	tests/probes ./ebpf
	tests/segments.py --check
	tests/edits.py --check
	tests/run ./ebpf
	tests/memory ./ebpf
	tests/streams ./ebpf
	tests/hostile ./ebpf
	tests/orders ./ebpf
	tests/threads ./ebpf
	tests/explore ./ebpf
	tests/expand ./ebpf
	tests/check ./ebpf
	tests/json ./ebpf
	tests/campaign ./ebpf
	tests/explore-far ./ebpf
	tests/docs ./ebpf
	tests/docs --self-test ./ebpf
	tests/completions ./ebpf
	tests/from-elf ./ebpf
	tests/from-pcap ./ebpf
	tests/programs/compare ./ebpf
	tests/selftests ./ebpf
	tests/dap ./ebpf
	tests/debug ./ebpf
	tests/page ./ebpf
	$(MAKE) manual

manual: ## Look for mistakes in the manual page with mandoc, where that is installed
	@if command -v mandoc >/dev/null; then mandoc -T lint ebpf.1; else echo "mandoc isn't installed: ebpf.1 isn't looked at"; fi

format: ## Break long lines of proofs, and lay out the sources of all crates as rt fmt does, which the gate asks for
	tools/wrap
	for crate in crates/*/; do (cd "$$crate" && rt fmt) || exit 1; done

check: ## The quick check while one writes: what changed is proved again
	rt all check

edits: ## Try the wrong bodies that the gate doesn't try, where something changed: hours at first; tests/edits.py CRATE tries one crate's
	tests/edits.py

SOAK = 1000
STRESS = maps/fullest-map maps/keys-that-differ-in-the-last-byte maps/sixteen-maps-by-sixteen-cpus \
	run/kept-pointer run/sixteen-cpus-add run/sixteen-cpus-add-to-a-variable run/sixteen-cpus-count-for-themselves \
	run/two-thousand-additions

soak: build ## Run each file of stress 1,000 times by 16 workers: minutes
	for file in $(STRESS); do tests/run --times $(SOAK) ./ebpf "$$file.toml, 16 workers" || exit 1; done

bench: build ## Time fixed programs beside other interpreters, map calls beside other maps, also by threads, and by workers beside the kernel, maps that grow, every schedule beside SPIN, thousands of files beside xargs, one search by many processes, texts of 16 MiB, and the largest run file
	cd crates/hop_bench && rt run </dev/null
	bench/run ./ebpf
	bench/maps ./ebpf
	bench/threads crates/hop_bench/out/hop_bench
	bench/workers ./ebpf
	bench/processor
	bench/explore ./ebpf
	bench/campaign ./ebpf
	bench/explore-far ./ebpf
	bench/texts ./ebpf
	bench/largest ./ebpf
	tests/page ./ebpf speed

dist: build ## Pack the program as a tar file and a Debian package below out/dist, and try both in empty folders
	tools/dist ./ebpf

SHARE = $(DESTDIR)$(PREFIX)/share

install: build ## Install the program, its manual page and completions below PREFIX (/usr/local), in DESTDIR where one is given
	install -D -m 755 ebpf $(DESTDIR)$(PREFIX)/bin/ebpf
	install -D -m 644 ebpf.1 $(SHARE)/man/man1/ebpf.1
	install -D -m 644 completions/ebpf.bash $(SHARE)/bash-completion/completions/ebpf
	install -D -m 644 completions/_ebpf $(SHARE)/zsh/site-functions/_ebpf
	install -D -m 644 completions/ebpf.fish $(SHARE)/fish/vendor_completions.d/ebpf.fish

uninstall: ## Remove what install put there
	rm -f $(DESTDIR)$(PREFIX)/bin/ebpf $(SHARE)/man/man1/ebpf.1 $(SHARE)/bash-completion/completions/ebpf
	rm -f $(SHARE)/zsh/site-functions/_ebpf $(SHARE)/fish/vendor_completions.d/ebpf.fish

help: ## Print this list
	@sed -n 's/^\([a-z]*\):.*## \(.*\)/\1\t\2/p' $(MAKEFILE_LIST)
