# Proves the crates of crates.txt, each after those that it uses, and builds the one that is the goal. package/prove runs it.
SHELL := /bin/bash
.SHELLFLAGS := -euo pipefail -c
.ONESHELL .SECONDEXPANSION:
begun := $(shell date +%s)
kit := $(shell dirname "$$(dirname "$$(readlink -f "$$(command -v rt)")")")
libraries := $(CURDIR)/out/$(if $(gate),gate,libraries)
names := $(notdir $(wildcard crates/*))
listed = $(shell sed -nE 's/^$@( staticlib)?: *//p' crates.txt)
below = $(if $(gate),,$(filter $(names),$(listed)))
is_goal = $(filter $(MAKECMDGOALS),$@)
file = $(if $(is_goal),$(made),out/libraries/$@.rlib)
work = $(CURDIR)/$(file).new
new = $(work)/$(notdir $(file))
is_arm = $(and $(is_goal),$(filter aarch64,$(target)))
# Two sums are the same if all that is read to make the file is, whatever the times of files are.
sum = { echo '$(version) $(gate) $(if $(is_goal),$(sources))' && sed -n '/^$@[ :]/p' crates.txt && cat /dev/null $(below:%=out/libraries/%.rlib.sum) && find crates/$@ \
    $(if $(is_arm),package/aarch64) '(' -name out -o -name must-fail ')' -prune -o -type f ! -name README.md -print0 | LC_ALL=C sort -z | \
    xargs -0 sha256sum; } | sha256sum
# What has others beside it takes half the processors.
places = $(if $(is_goal)$(filter digits_core scan_core hub_core command_runs,$@),$(jobs),$$((($(jobs) + 1) / 2)))
rattle = cd crates/$@ && "$(kit)/bin/rattle" build --crate-name $@ src/$(if $(wildcard crates/$@/src/main.rt),main,lib).rt --jobs $(places) --links $@= \
    -L "dependency=$(kit)/rlibs" -L "dependency=$(libraries)" --antt-project "$(kit)/rattle/logic/antt-project.json" --logic-built "$(kit)/logic_built" \
    $(foreach it,std $(listed),--extern "$(it)=$(if $(filter $(names),$(it)),$(libraries),$(kit)/rlibs)/$(it).rlib")
machine = --target $(if $(filter wasm64,$(target)),wasm64-unknown-unknown,$(or $(target:_v2=),x86_64)-unknown-linux-gnu) \
    --toolchain "$(if $(is_arm),$(work),$(kit))/toolchain"
compile = $(if $(is_arm),package/aarch64/toolchain "$(kit)" "$(work)/toolchain" &&) \
    $(rattle) $(machine) --backend llvm $(if $(filter x86_64,$(target)),--cpu x86-64)
link = "$(kit)/bin/rattle-link" $(machine) -o "$(new)"
# The program says of which sources it is: no crate can know the sum of all.
stamp = $(if $(filter gs1_hub,$@),&& LC_ALL=C sed -i "s/sources 0\{12\}/sources $(sources)/" "$(new)")
# The statements of some hold those of most of jiff: these are written as they were checked.
build.rlib = ($(rattle) $(if $(filter element_core code128_code lane_core,$@),--incremental "$(work)/checked",--statements) -o "$(new)")
build.a = ($(compile) --crate-type staticlib -o "$(new)")
build.wasm = ($(compile) --crate-type staticlib -o "$(new).a") && $(link) "$(new).a"
# What is given to others has no names of its parts. The kit's compiler is several tools, by the name that it is called by.
build = ($(compile) -o "$(new).o") && $(link) "$(new).o" $(if $(is_arm),"$(work)/toolchain/kit.o","$(kit)/c/libos_c.a" "$(kit)/c/liblibc_c.a") \
    $(if $(target),&& (exec -a llvm-strip "$(kit)/toolchain/bin/clang" "$(new)")) $(stamp)

.PHONY: $(names)
$(names): $$(below)
	say() { t=$$(($$(date +%s) - $(begun))) && printf '$(MAKECMDGOALS): %d:%02d $@: %s\n' $$((t / 60)) $$((t % 60)) "$$1" >&2; }
	sum=$$($(sum))
	[ ! -e $(file) ] || [ "$$(cat $(file).sum 2>/dev/null)" != "$$sum" ] || exit 0
	say proving
	rm -rf $(file).sum "$(work)" && mkdir -p "$(work)"
	{ $(build$(suffix $(file))); } >"$(work)/log" 2>&1 || { cat "$(work)/log" >&2 && say "not proved or not built" && exit 70; }
	rm -rf $(file) && mv "$(new)" $(file) && rm -r "$(work)"
	# What changed meanwhile is proved again by the next run, and so is what stands on it.
	[ "$$($(sum))" = "$$sum" ] || sum="changed $$(date +%s.%N)"
	echo "$$sum" >$(file).sum && say proved
