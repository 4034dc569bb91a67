# Proves and builds PROGRAM from the crates of crates.txt, for ./ibm1401. A crate is proved again after a change of its
# sources, of its line in crates.txt, of one of its libraries, or of the toolchain, whose command rt is on the PATH.
PROGRAM := ibm1401
KIT := $(patsubst %/bin/rt,%,$(realpath $(shell command -v rt)))
TOOLCHAIN := $(shell rt version)
SOURCES := $(shell find crates -name out -prune -o -type f -regex '.*[.]\(rt\|antt\)' -print)
# The crates that it needs, each as NAME:LIBRARY:.., from the one with the longest chain of crates above it down.
LINES := $(shell tac crates.txt | awk -F '[: ]+' -v OFS=: '$$1 == "$(PROGRAM)" || $$1 in above { n = above[$$1] + 1; \
	for (k = 2; k <= NF; k++) if (above[$$k] < n) above[$$k] = n; $$1 = n " " $$1; print }' | sort -rn | cut -d' ' -f2)
CRATES := $(foreach line,$(LINES),$(firstword $(subst :, ,$(line))))
stamp = crates/$1/out/proved/stamp

all: $(foreach crate,$(CRATES),$(call stamp,$(crate)))
.PHONY: all again

# $1 is a crate and $2 its libraries. Its stamp has the libraries and the toolchain of its proof.
define rules
LIBRARIES_$1 := $2
$(call stamp,$1): $(filter crates/$1/%,$(SOURCES)) $(foreach each,$(filter $(CRATES),$2),$(call stamp,$(each))) \
	$(if $(subst <$(strip $(TOOLCHAIN) $2)>,,<$(strip $(file <$(call stamp,$1)))>),again)
endef
$(foreach line,$(LINES),$(eval $(call rules,$(firstword $(subst :, ,$(line))),$(wordlist 2,99,$(subst :, ,$(line))))))

LIBRARY_FLAGS = $(foreach each,$(LIBRARIES_$*),--extern \
	$(each)=$(if $(filter $(each),$(CRATES)),../$(each)/out/proved,$(KIT)/rlibs)/$(each).rlib)
RATTLE = $(KIT)/bin/rattle build --crate-name $* --jobs $$(nproc) --extern std=$(KIT)/rlibs/std.rlib $(LIBRARY_FLAGS) \
	-L dependency=$(KIT)/rlibs $$(find .. -maxdepth 4 -path '*/out/proved/stamp' -printf '-L dependency=%h ') \
	--antt-project $(KIT)/rattle/logic/antt-project.json --logic-built $(KIT)/logic_built
# A library has its statements alone: the crates above need no more. A program ends with what --version says of it.
LIBRARY = $(RATTLE) src/lib.rt --statements -o out/proved/$*.rlib
BINARY = $(RATTLE) src/main.rt --toolchain $(KIT)/toolchain --backend llvm -o out/$*.o && \
	$(KIT)/bin/rattle-link --target x86_64-unknown-linux-gnu --toolchain $(KIT)/toolchain -o out/$* out/$*.o \
	$(KIT)/c/libos_c.a $(KIT)/c/liblibc_c.a && printf '\0%s\n' "$$RECORD" >> out/$*
# A stamp has the time at which its proof began, so a source that has changed meanwhile is newer.
crates/%/out/proved/stamp:
	@cd crates/$* && rm -rf out/proved && mkdir -p out/proved && \
	echo '$(TOOLCHAIN) $(LIBRARIES_$*)' > out/proved/begun && \
	{ $(if $(wildcard crates/$*/src/lib.rt),$(LIBRARY),$(BINARY)); } 3>&1 >&2 && \
	mv out/proved/begun out/proved/stamp && echo $* proved || { echo $* refused; exit 1; }
