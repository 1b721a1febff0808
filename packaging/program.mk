# Proves the crates that the program stands on, each as soon as those below it are proved, and builds the program.
# packaging/build-program calls it at the top of the repository, for two crates at a time, with
#
#   COPY   a copy of the tree: one crate is proved here and the other one there, since `rt` keeps any other `rt` out of
#          the folders of a crate and of those below it; each takes over what the other one built
#   JOBS   the number of processors for each crate

# crates.txt says of each crate which are below it, in the form of rules.
include crates.txt

# WORDS: calls `rt` in the folder of a crate
prove = echo $@; mkdir -p crates/$@/out; log=$(CURDIR)/crates/$@/out/proof.log; \
	exec 9>> $(COPY)/lock; flock -n 9 || cd $(COPY); \
	(cd crates/$@ && rt $(1) > "$$log" 2>&1 < /dev/null) || \
	{ echo "$@ isn't proved; the last lines of $$log:"; tail -20 "$$log"; exit 1; } >&2

derguard:
	@$(call prove,run --jobs $(JOBS) -- --version)

# A name without a folder is that of a library of the toolchain.
%:
	@[ ! -d crates/$@ ] || { $(call prove,lib --jobs $(JOBS)); }
