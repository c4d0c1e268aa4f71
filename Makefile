# `make` proves the crates that the program `plans` is made of, each as soon as those that it uses are, and builds crates/plans/out/plans.
#
# crates/NAME/out/kept is as old as the sources that were proved, and crates/NAME/out/log has what rt printed. Only these crates and their own
# lines of crates.txt count. While rt works in a folder it keeps others out of all folders below. So the longest chain is proved in place, by
# $(jobs) jobs, and what is beside it in copies of the sources, with the libraries that it uses; what comes of it is moved here.
SHELL := bash
chain := dl_values dl_desk dl_history dl_loader dl_workers dl_haxl dl_scope dl_plans dl_server plans
# What is beside it is proved by one job each, but this by two, where the chain has several.
large := dl_documents

# How many crates at a time, without -j, and by how many jobs: a job takes up to 2.5 GB, and a crate of one job up to 5.
room := $(shell awk '/^MemAvailable/ { print int($$2 / 2500000) }' /proc/meminfo)
$(if $(shell rt doc),,$(error rt, the toolchain's command, is not on the path))
size := $(shell p=$$(nproc) r=$(room); j=$$((p < r ? p : r)); j=$$((j < 1 ? 1 : j > 8 ? 8 : j)); \
	if ((r < j || j < 4 && r < 2 * j)); then echo 1 $$j; elif ((j < 4)); then echo $$j 1; \
	else echo $$((r - j < 1 ? 2 : r - j > 3 ? 4 : r - j + 1)) $$j; fi)
MAKEFLAGS += -j$(word 1,$(size))
jobs := $(word 2,$(size))

listed := $(shell sed -En 's/^(\w+).*/\1/p' crates.txt)
# What a crate uses, the chain first, since make begins in that order; all crates below it; and `crates`, each behind what it uses.
used = $(filter $(listed),$(shell sed -En 's/^$1\b[^:]*:([^#]*).*/\1/p' crates.txt))
uses = $(filter $(chain),$(used)) $(filter-out $(chain),$(used))
below = $(sort $(foreach name,$(call uses,$1),$(name) $(below_$(name))))
add = $(if $(filter $1,$(crates)),,$(foreach name,$(call uses,$1),$(call add,$(name)))$(eval crates += $1)$(eval below_$1 := $(call below,$1)) \
	$(eval place_$1 := $(words $(crates))))
sources = $(shell find $(wildcard $(addprefix crates/$1/,src specs proofs)))

build: crates/plans/out/kept
	@rm -rf crates/*/out/apart

$(call add,plans)
$(foreach name,$(crates),$(eval crates/$(name)/out/kept: crates/$(name)/out/line $(call sources,$(name)) \
	$(patsubst %,crates/%/out/kept,$(call uses,$(name)))))
crates/plans/out/kept: $(crates:%=crates/%/out/line)

crates/%/out/kept:
	@echo 'plans: proving $*, crate $(place_$*) of $(words $(crates))' && cat $(filter %/line,$^) >$(@D)/begun
	@( $($(way)) ) </dev/null >$(@D)/log 2>&1 || { $(tell_why); exit 1; }
	@$(if $(filter apart,$(way)),$(moved) &&) $(if $(filter program,$(way)),$(summed) &&) mv $(@D)/begun $@

way = $(or $(if $(filter plans,$*),program),$(if $(filter $(chain),$*),in_place),$(if $(filter-out -j1,$(filter -j%,$(MAKEFLAGS))),apart),in_place)
rt = setpriv --pdeathsig TERM rt
in_place = cd crates/$* && $(rt) lib --jobs $(jobs)
apart = rm -rf $(@D)/apart/crates/*/{src,specs,proofs} && mkdir -p $(@D)/apart && tar -cf - --exclude=out crates.txt crates \
	| tar -xf - -C $(@D)/apart && for name in $(below_$*); do mkdir -p $(@D)/apart/crates/$$name/out && rm -rf $(@D)/apart/crates/$$name/out/rlib \
	&& cp -al crates/$$name/out/rlib $(@D)/apart/crates/$$name/out || exit; done && cd $(@D)/apart/crates/$* \
	&& nice -n 5 $(rt) lib --jobs $(if $(and $(filter-out 1,$(jobs)),$(filter $(large),$*)),2,1)
moved = rm -rf $(@D)/{rlib,incremental} && mv $(@D)/apart/crates/$*/out/{rlib,incremental} $(@D)
program = cd crates/plans && $(rt) run -- --help && { [[ -f out/plans.stamp ]] || { echo 'error: a source changed, so try again' && false; }; }
# What ./plans goes by if something is newer: the sums of all files that the program is made of, and its own; none if a source changed meanwhile.
summed = folders=$$(grep ^crates/ $(@D)/begun) && find $$folders $(@D)/plans ! -type d -exec sha256sum {} + | LC_ALL=C sort >$(@D)/sums \
	&& { find $$folders -newer $(@D)/begun -exec false {} + || rm -f $(@D)/sums; }
tell_why = grep -Em12 ': (not proved|no proof)|it is not proved|\berror(:|\[)' $(@D)/log || tail -n12 $(@D)/log; \
	echo "plans: $* is not proved; the whole output is in $$PWD/$(@D)/log"

# A crate's line of crates.txt, and the folders that the program is made of: one that is gone is a change too.
line = grep -E '^$*\b' crates.txt && printf '%s\n' $(wildcard crates/$*/src crates/$*/specs)
crates/%/out/line: always
	@mkdir -p $(@D) && { $(line); } | cmp -s - $@ || { $(line); } >$@
always:

# Makes in dist/ what others install without the toolchain.
release: build
	for crate in dl_c dl_loader_c; do (mkdir -p crates/$$crate/out && cd crates/$$crate && { $(rt) lib >out/log 2>&1 || { tail -n12 out/log >&2; false; }; }) \
		|| exit; done && ./release
.PHONY: build always release
