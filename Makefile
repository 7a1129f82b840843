# Proves the crates of crates.txt side by side and builds the programs among them.
#
#   make             the programs and what they depend on, as many crates at a time as there are processors (or -jN)
#   make NAME        one crate or program, and what it depends on
#   make edits-NAME  the must-fail edits of a crate, those in bench/edits/NAME too: the prover must refuse each
#   make try         a first look at arrowpipe, without any proof: make try WORDS='select=name' < FILE; another: PROGRAM=arrowtree
#   make dist        out/rekuyomi.tar.gz: the programs, manuals, pages, examples, tools and the SHA-256 sums of these
#   make install     what is built, under PREFIX (/usr/local): lib/rekuyomi, with links in bin and share; uninstall removes these
#   make check       the gate
#   make clean       removes what the others made
#   make help        these lines
#
# A crate stays proved until the kit, one of its files or a crate below it changes: what they hold counts, not their times.
# The programs and the logs are in out/. The libraries are in POOL: they hold source files, which rt refuses elsewhere.

# A shell ends with the make that called it, and what it runs with it: whatever ends a build leaves no prover.
override SHELL := /usr/bin/setpriv
override .SHELLFLAGS := --pdeathsig TERM /bin/bash -O globstar -O nullglob -c
export LC_ALL := C
export TOP := $(CURDIR)
POOL := crates/arrowpipe/out/rlib
LANES := $(shell nproc)
PROGRAM := arrowpipe
.DELETE_ON_ERROR:

# What would have a stamp made that nothing stands behind.
$(foreach it,i t n q e,$(if $(findstring $(it),$(firstword -$(MAKEFLAGS))),$(error make -$(it) is refused: a build is made whole)))
$(if $(MAKEFILES)$(findstring --eval,$(MAKEFLAGS)),$(error MAKEFILES or --eval is refused: this Makefile is read alone))
MAKEOVERRIDES :=

ifneq ($(origin LOCKED),command line)
# One build at a time: one more make, which waits for the lock, makes all goals. What it starts holds the lock, too.
MAKEFLAGS += -j$(LANES) --no-print-directory
GOALS := $(filter-out check clean try help install uninstall,$(or $(MAKECMDGOALS),all))
.PHONY: all build check clean try help install uninstall $(GOALS)
$(sort all $(GOALS)): build ; @:
build: $(filter clean,$(MAKECMDGOALS))
	+@[[ $$TOP != *$$'\n'* ]] || { echo "the path of this folder has a line feed, which isn't taken" >&2; exit 1; }
	+@mkdir -p out/log $(POOL) 2> /dev/null || { echo "out or $(POOL) can't be written" >&2; exit 1; }
	+@flock -n crates true || echo 'waiting for another build' >&2
	+@exec env -u{SHELLOPTS,BASHOPTS,BASH_ENV} flock -F crates $(MAKE) LOCKED=1 $(GOALS)
check:
	@.ci/run
clean:
	@flock crates rm -rf out $(POOL)
help:
	@sed -n '2,/^$$/s/^#$$//p; 2,/^$$/s/^# //p' Makefile
try:
	@command -v rt > /dev/null || { echo "make try needs the Rattle kit, and its rt isn't on the path" >&2; exit 1; }
	@tools/front try $(PROGRAM) $(WORDS)
install uninstall:
	@tools/release $@ "$${DESTDIR-}$${PREFIX:-/usr/local}"
else

$(if $(shell flock -n crates echo free),$(error LOCKED is refused: this Makefile alone sets it, when it has the lock))
# What the launcher compares with: where the sources are and since when, before anything of them is read.
SOURCES := $(shell . ./arrowpipe && sources)
# What would fail later is told at once: no kit, a folder that can't be written, a disk that is full.
KIT_LINE := $(shell rt version 2>&1)
KIT := $(shell it=$$(rt doc 2> /dev/null) && [[ $$it == /*/START-HERE.md && $$it != *$$'\n'* ]] && printf %s "$${it%/START-HERE.md}")
export KIT
$(if $(KIT),,$(error $(if $(shell command -v rt),the Rattle kit's rt names no folder that can be taken: $(KIT_LINE),the Rattle kit's rt isn't on the path)))
# Writes a file there, and says why it can't.
fill = { printf %0100000d 0 > $(1)/room; } 2>&1
FULL := $(shell for it in out out/log $(POOL); do said=$$($(call fill,$$it)) || { [[ $$said == *'No space'* ]] && echo "the disk of $$it is full" || \
  echo "$$it can't be written: $${said##*: }"; break; }; done; rm -f out/room out/log/room $(POOL)/room)
$(if $(FULL),$(error $(FULL)))
README_KIT := $(shell sed -n 's/^Kit: `\([^`]*\)`.*/\1/p' README.md)
OTHER_KIT := $(if $(filter $(lastword $(KIT_LINE)),$(README_KIT)),,the kit is $(KIT_LINE), where README has $(README_KIT))

# What each crate depends on: as crates.txt has it; of that our own crates; and all of ours below it, with itself.
comma := ,
LINES := $(shell sed -n 's/^\([a-z0-9_]*\)[^:\#]*: */\1:/p' crates.txt | tr ' ' ,)
CRATES := $(foreach it,$(LINES),$(firstword $(subst :, ,$(it))))
PROGRAMS := $(foreach it,$(CRATES),$(if $(wildcard crates/$(it)/src/main.rt),$(it)))
# Those with a manual are for users; the others run cases, or are examples.
FOR_USERS := $(foreach it,$(PROGRAMS),$(if $(wildcard docs/$(it).1),$(it)))
define read_line
DEPS_$(1) := $(subst $(comma), ,$(2))
OURS_$(1) := $(filter $(CRATES),$(subst $(comma), ,$(2)))
BELOW_$(1) := $$(sort $(1) $$(foreach it,$$(OURS_$(1)),$$(or $$(BELOW_$$(it)),$$(error crates.txt has $(1) before $$(it)))))
endef
$(foreach it,$(LINES),$(eval $(call read_line,$(firstword $(subst :, ,$(it))),$(word 2,$(subst :, ,$(it))))))

# The sum of what a crate is made of: the kit, what it depends on, and its files. A stamp with the sum in its name is
# there where the library is proved, or the program built, of just that.
sum = { echo '$(KIT_LINE)' $(DEPS_$(1)) $(foreach it,$(OURS_$(1)),$(SUM_$(it))); cd ./crates/$(1) && \
  find -L src specs proofs -name '.*' -prune -o -type f -print0 2> /dev/null | LC_ALL=C sort -z | xargs -0 sha256sum; } | sha256sum | cut -c1-16
$(foreach it,$(CRATES),$(eval SUM_$(it) := $(shell $(call sum,$(it)))))
$(foreach it,$(CRATES),$(eval STAMP_$(it) := $(if $(filter $(it),$(PROGRAMS)),out,$(POOL))/$(it)-$(SUM_$(it)).proved))

# What the goals need. A program that its sources no longer give, or that isn't as it was made, goes first.
NEEDED := $(sort $(foreach it,$(MAKECMDGOALS:edits-%=%) $(if $(filter all dist,$(MAKECMDGOALS)),$(FOR_USERS)),$(BELOW_$(it))))
$(foreach it,$(filter $(NEEDED),$(PROGRAMS)),$(shell { [ -s out/$(it) ] && sha256sum < out/$(it) | cmp -s - $(STAMP_$(it)) && \
  chmod +x out/$(it); } || rm -rf out/$(it) out/$(it).built $(STAMP_$(it))))
LEFT := $(strip $(foreach it,$(NEEDED),$(if $(wildcard $(STAMP_$(it))),,$(it))))
$(if $(LEFT),$(shell rm -rf $(LEFT:%=out/log/%.log); echo '$(words $(LEFT)) of $(words $(NEEDED)) crates are to be proved; the logs are in out/log' >&2))
$(if $(and $(LEFT),$(OTHER_KIT)),$(shell echo '$(OTHER_KIT): a proof may fail by its logic' >&2))
$(if $(LEFT),$(shell left=$$(df --output=avail -BM out | tail -n 1 | tr -dc 0-9) need=$$((20 * $(words $(LEFT)))); [ $${left:-$$need} -ge $$need ] || \
  echo "$$left MB are free on the disk of out, and what is to be proved takes up to $$need" >&2))

# The kit's calls, made in the crate's folder. A prover ends with the shell that called it. A library gets a second job where
# half of the processors would be idle without: what is being made has a log.
rattle = setpriv --pdeathsig TERM "$$KIT"/bin/rattle build --crate-name $(1) --links $(1)= -L dependency="$$KIT"/rlibs \
  -L dependency="$$TOP"/$(POOL) $(foreach it,$(OURS_$(1)),--extern $(it)="$$TOP"/$(POOL)/$(it).rlib) \
  $(foreach it,std $(filter-out $(CRATES),$(DEPS_$(1))),--extern $(it)="$$KIT"/rlibs/$(it).rlib) \
  --antt-project "$$KIT"/rattle/logic/antt-project.json --logic-built "$$KIT"/logic_built
library = $(rattle) --jobs $$((2 * $$(ls "$$TOP"/out/log | wc -l) > $(LANES) ? 1 : 2)) --statements src/lib.rt -o $(2)
object = $(rattle) --jobs $(LANES) --toolchain "$$KIT"/toolchain --backend llvm src/main.rt -o $(2).o
program = $(object) && "$$KIT"/bin/rattle-link --target x86_64-unknown-linux-gnu --toolchain "$$KIT"/toolchain -o $(2) $(2).o \
  "$$KIT"/c/libos_c.a "$$KIT"/c/liblibc_c.a
# On the words and the input that its crate has stored a program must write and answer what is stored.
stored = $(if $(wildcard crates/$(1)/$(2)),$(2),/dev/null)
runs = mapfile -t words < $(call stored,$(1),args) && { $(2) "$${words[@]}" < $(call stored,$(1),stdin) > $(2).stdout; \
  [ $$? -eq "$$(grep . $(call stored,$(1),status) || echo 0)" ]; } && cmp $(2).stdout $(call stored,$(1),stdout)

# Makes one crate by this call; else says why, by the lines of its log that tell it. What it made replaces what was there. It is
# one line of the shell, so that nothing of it is done behind what failed. The stamp of a program has the program's sum.
name = $(firstword $(subst -, ,$(@F)))
log = out/log/$(name).log
why = { [ ! -f $(log) ] || { grep -E '^(error|note: src/|fn .*: no proof)' $(log) | cut -c1-200 | head -n 20; tail -n 2 $(log); }; \
  full=$$($(call fill,out/log); cat $(log) 2>&1); rm -f out/log/room; [ -f $(log) ] || echo "$(log) can't be written"; \
  [[ $$full != *'No space'* ]] || echo 'the disk is full'; \
  echo 'not proved: $(name)$(if $(OTHER_KIT),; $(OTHER_KIT)); the log is $(log)'; } >&2
define made
@{ cd ./crates/$(name) && $(1); } > $(log) 2>&1 || { cd "$$TOP"; $(why); exit 1; }; cd "$$TOP"; \
  [ "$$($(call sum,$(name)))" = $(SUM_$(name)) ] || { echo 'a source of $(name) has changed meanwhile' >&2; exit 1; }; \
  rm -rf $(@D)/$(name)-*.proved $(2) && mv $(2).new $(2) && $(if $(filter out,$(@D)),sha256sum < $(2),true) > $@.new && mv $@.new $@ && \
  rm -f $(log) $(2).new.* || { echo "$(2) can't be written" >&2; exit 1; }; \
  echo "proved $$(ls $(foreach it,$(NEEDED),$(STAMP_$(it))) 2> /dev/null | wc -l) of $(words $(NEEDED)) crates: $(name)"
endef

.SECONDEXPANSION:
.PHONY: all dist $(CRATES) $(CRATES:%=edits-%)
all: $(FOR_USERS)
$(CRATES): $$(foreach it,$$(filter $$(BELOW_$$@),$(CRATES)),$$(STAMP_$$(it)))
	@$(if $(filter $@,$(PROGRAMS)),. ./arrowpipe && { echo '$(SOURCES)'; own out/$@; } > out/$@.built && echo 'built: out/$@',echo 'proved: $@')
$(foreach it,$(filter-out $(PROGRAMS),$(CRATES)),$(STAMP_$(it))): | $$(foreach it,$$(OURS_$$(name)),$$(STAMP_$$(it)))
	$(call made,$(call library,$(name),"$$TOP"/$(POOL)/$(name).rlib.new),$(POOL)/$(name).rlib)
$(foreach it,$(PROGRAMS),$(STAMP_$(it))): | $$(foreach it,$$(OURS_$$(name)),$$(STAMP_$$(it)))
	$(call made,$(call program,$(name),"$$TOP"/out/$(name).new) && $(call runs,$(name),"$$TOP"/out/$(name).new),out/$(name))

# An edit is tried once its crate is proved without it.
EDITS := $(wildcard crates/*/must-fail/*.edit bench/edits/*/*.edit)
owner = $(word 2,$(subst /, ,$(1:bench/%=%)))
.PHONY: $(EDITS:%=try/%)
$(CRATES:%=edits-%): edits-%: $$(foreach it,$(EDITS),$$(if $$(filter $$*,$$(call owner,$$(it))),try/$$(it)))
	@echo 'refused: $(words $^) edits'
$(EDITS:%=try/%): try/%: | $$(STAMP_$$(call owner,$$*))
	@.ci/try-edit crates/$(call owner,$*) $* $(call $(if $(filter $(call owner,$*),$(PROGRAMS)),object,library),$(call owner,$*),made)
dist: $(FOR_USERS)
	@tools/release pack out/rekuyomi.tar.gz $(FOR_USERS:%=out/%) && echo 'made: out/rekuyomi.tar.gz'
endif
