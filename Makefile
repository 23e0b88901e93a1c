# Proves every crate, tries the edits that must fail, and runs the tests, the programs and their cases.
# What an earlier run here passed is taken where nothing has changed, unless FLAGS is --from-nothing.
.PHONY: test
test:
	@gate/edits_fit
	@python3 gate/run.py $(FLAGS)

# Puts into dist/ what can be installed: a tarball, a Debian package and the built libraries. The program is built first where it isn't.
.PHONY: package
package:
	@./jinit --version > /dev/null
	@package/make
