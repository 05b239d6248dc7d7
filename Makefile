# What is made and tried here, a goal a line; each is a command that also runs by itself.
.PHONY: unproved check prove gate bench docs dist roots help
TYPED = build web/module/no_table.py tools/dist.py tests/roots.py tests/test_front.py tests/test_release.py tests/validation.py tests/notebook.py
PAGES = tools/pages.py tests/test_pages.py
MYPY = mypy --strict --python-version 3.9 --explicit-package-bases

unproved:           ## the program without a proof, in about a minute, unless there is one of these sources
	@./build --unproved
check: unproved     ## types, names and all tests that prove nothing, in about five minutes
	@if command -v mypy >/dev/null; then MYPYPATH=tools:tests:web:tests/front:companion/src/evacask/client $(MYPY) $(TYPED) && MYPYPATH=tools:companion/src $(MYPY) $(PAGES); else echo 'types: not checked, since mypy is not here'; fi
	@if command -v pyflakes3 >/dev/null; then pyflakes3 $(TYPED) $(PAGES); else echo 'names: not checked, since pyflakes3 is not here'; fi
	python3 tools/check_promises.py
	python3 tools/pages.py
	python3 -m unittest discover -s tests -t tests
	companion/tests/run
prove:              ## the proved program
	./build
gate:               ## everything from nothing: hours of processor time
	.ci/run
bench:              ## measures the proved program, and writes the tables of docs/maintainers/speed.md
	bench/run
docs:               ## the tables, figures and pages that are written by scripts
	python3 tools/tables.py --write
	python3 tools/figures.py --write
	python3 tools/pages.py --write
	tests/validation.py --write
dist: prove         ## the release, in out/dist
	python3 tools/dist.py
roots:              ## the release made twice and tried in roots of busybox and Debian
	python3 tests/roots.py
help:               ## these goals
	@sed -n 's/^\([a-z]*\):.*## /\1: /p' Makefile
