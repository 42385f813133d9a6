# What a C or C++ host needs, in dist/.
dist:
	tools/dist.sh

.PHONY: dist
