# make lib     the proved library, target/staticlib/libkazhuvendi.a
# make test    everything that has to hold before a change is taken in
# make kz      the command line program, host/target/release/kz
# make demo    plans a sample depot's day, shows it and draws it
# make install puts program, library, header, manual page, completions and documents below PREFIX
# make bench   times of the library beside plain Rust
# make figures time and memory of kz, the table in docs/INTEGRATE.md; a minute or more
# make fuzz    compares the library with the second implementation, then gives damaged files to every
#              command of kz, each for SECONDS seconds; SEED=... repeats a run
# make examples  writes the sample days, the sample instance and the plan of day M anew
# make manual    writes the manual page and the completions anew
# make pictures  writes the pictures of the guide anew
# make guides    writes the pictures anew, and what the commands of README, GUIDE and INTEGRATE print
# make clean   removes all that was made

SECONDS ?= 60
SEED ?=
PREFIX ?= /usr/local
DESTDIR ?=

LIBRARY := target/staticlib/libkazhuvendi.a
PROVED := crates.txt $(shell find crates -type f -not -path '*/out/*')
CARGO := cd host && cargo
RUN := $(CARGO) run --release --offline --quiet

KZ := host/target/release/kz
CHART := target/demo.svg
PLACE := $(DESTDIR)$(PREFIX)
DOCUMENTS := $(PLACE)/share/doc/kazhuvendi

.PHONY: lib kz test demo install bench figures fuzz examples manual pictures guides clean

lib: $(LIBRARY)

# What the library stands on is proved first, and then it is built.
$(LIBRARY): $(PROVED)
	@echo "The library is proved first and then built: some minutes at the first time."
	cd crates/kazhuvendi && rt lib
	install -D -m 644 crates/kazhuvendi/out/libkazhuvendi.a $@

test:
	.ci/run

kz: lib
	@$(CARGO) build --release --offline --quiet -p kz

demo: kz
	@$(KZ) demo -o $(CHART)

install: kz
	install -D -m 755 $(KZ) $(PLACE)/bin/kz
	install -D -m 644 $(LIBRARY) $(PLACE)/lib/libkazhuvendi.a
	install -D -m 644 host/include/kazhuvendi.h $(PLACE)/include/kazhuvendi.h
	install -D -m 644 host/kz/man/kz.1 $(PLACE)/share/man/man1/kz.1
	install -D -m 644 host/kz/completions/kz.bash $(PLACE)/share/bash-completion/completions/kz
	install -D -m 644 host/kz/completions/_kz $(PLACE)/share/zsh/site-functions/_kz
	install -D -m 644 host/kz/completions/kz.fish $(PLACE)/share/fish/vendor_completions.d/kz.fish
	install -D -m 644 -t $(DOCUMENTS) LICENSE docs/GUIDE.md docs/FORMAT.md docs/INTEGRATE.md docs/PROMISES.md
	install -D -m 644 -t $(DOCUMENTS)/pictures docs/pictures/*.svg
	install -D -m 644 -t $(DOCUMENTS)/examples examples/*

bench: lib
	@$(RUN) -p bench

figures: kz
	@$(RUN) -p kz --example figures -- ../$(KZ)

fuzz: lib
	@$(RUN) -p kazhuvendi --example fuzz -- $(SECONDS) $(SEED)
	@$(RUN) -p kz --example damaged -- $(SECONDS) $(SEED)

examples: lib
	@$(RUN) -p reference --example day_m > ../examples/day-m.day
	@$(RUN) -p reference --example plan_m > ../examples/day-m.plan
	@$(RUN) -p kz --example write_depot -- ../examples
	@$(RUN) -p kz --example write_harbour > ../examples/harbour.txt

manual: lib
	@$(RUN) -p kz --example manual -- man > kz/man/kz.1
	@$(RUN) -p kz --example manual -- bash > kz/completions/kz.bash
	@$(RUN) -p kz --example manual -- zsh > kz/completions/_kz
	@$(RUN) -p kz --example manual -- fish > kz/completions/kz.fish

pictures: kz
	@$(KZ) build examples/depot.txt | $(KZ) chart examples/depot.txt - -o docs/pictures/greedy.svg
	@$(KZ) demo -o docs/pictures/settled.svg > /dev/null

guides: pictures
	@cd host && WRITE_PAGES=yes cargo test --release --offline --quiet -p kz --test program guides::the_commands

clean:
	rm -rf target host/target crates/*/out
