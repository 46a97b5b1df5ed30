# make check        every check of this repository, and the proofs: tools/check_all. As root it installs Debian's packages; NO_INSTALL=1 names them
# make check-long   slow guests, long queues, all planted faults
# make part-NAME    one part of make check: make part-c; tools/check_all --list has them
check:
	@tools/check_all

check-long:
	@tools/check_all --long

part-%:
	@tools/check_all --only $*

.PHONY: check check-long
