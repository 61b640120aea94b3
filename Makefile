# make run      the panel program on a script, proved and built first where it must be. SCRIPT=FILE names another than the sample: .txt is
#               text, .hex is hex with comments, .bin is bytes. OPTIONS="--show --strict" are those of tools/run, whose --help has them
# make report   the lit time of each cathode in the run of a script, by the report program, proved and built first where it must be. SCRIPT=FILE as
#               above; OPTIONS are those of tools/report. tools/wear draws what it prints
# make plan     the fewest accesses from the picture of the script FROM=FILE to that of TO=FILE, as text; each is a sample where it isn't given
# make test     the gate: everything is proved, every wrong version is tried, then our own tests run. What rt ci proved from nothing and tried of the same
#               files on this machine it does not do again
# make lib      the library for C, C++, Rust and Python, static and shared, with its header, in target/lib
# make bench    the speed of the exported calls and of the programs, beside plain C, C tuned by hand and the second double
# make install  puts the library, its header and pkg-config file, panel, the tools, docs and samples under PREFIX, which is /usr/local where it
#               isn't given; DESTDIR goes before every path, and LIBDIR is the folder for the libraries in place of PREFIX/lib
# make uninstall removes exactly what make install put under PREFIX, in DESTDIR where it was given
# make dist     a tarball in target/dist of what is installed, the Python package and the Rust crate, for machines without the Rattle kit
# make clean    removes target/ and crates/*/out/, which have all that was built and proved
# make help     says this
.PHONY: run report plan test lib bench install uninstall dist clean help
# With it a script's cd prints where it went.
unexport CDPATH
OPTIONS =
FROM ?= samples/plan-from.txt
TO ?= samples/plan-to.txt
PREFIX ?= /usr/local
export DESTDIR LIBDIR

run:
	@tools/run $(OPTIONS) -- "$(or $(SCRIPT),samples/first.hex)"

report:
	@tools/report $(OPTIONS) -- "$(or $(SCRIPT),samples/wear.txt)"

plan:
	@tools/plan -- "$(FROM)" "$(TO)"

test:
	@tests/gate

lib:
	@tools/alone tools/library

bench:
	@bench/run

install:
	@tools/alone sh -c 'image=$$(tools/image) && "$$image/install.sh" "$$1"' sh "$(PREFIX)"

uninstall:
	@tools/install.sh --uninstall "$(PREFIX)"

dist:
	@tools/alone tools/dist

clean:
	@tools/alone rm -rf target crates/*/out

help:
	@sed -n 's/^# \{0,1\}//p' Makefile
