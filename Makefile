# Builds, installs and packs with cargo; tools/README.md explains the choices.
#   make                      builds the programs and the C library
#   make install              installs these, the header, a file for pkg-config and the manuals
#   make install-python       also installs the Python package and the checkers
#   make uninstall            removes what was installed under PREFIX
#   make archive              makes OUT/semver-parser-VERSION-linux-PROCESSOR.tar.gz
#   make wheel                makes a wheel in OUT, for pip: the Python package with the library
#   make sdist                makes an archive of its sources in OUT, from which pip builds it
#   make js                   makes the JavaScript package in OUT, for npm
#   make crate                makes the Rust crate in OUT, for cargo
#   make page                 makes OUT/semver-ranges.html, the page of js/web in one file
#   make release              makes everything that is published in OUT, with SHA256SUMS
#   make clean                removes what was built
#   dpkg-buildpackage -b -uc  makes the Debian packages, in the directory above this one
PREFIX ?= /usr/local
LIBDIR ?= lib
ZSHDIR ?= share/zsh/site-functions
OUT ?= out
export PREFIX OUT ZSHDIR
# cargo doesn't use the job server of this make.
unexport MAKEFLAGS MFLAGS
MAKEFLAGS += -r -j$(shell nproc) --no-print-directory
.ONESHELL .SILENT .DELETE_ON_ERROR:
.SHELLFLAGS := -euc
.PHONY: all stage stage-python install install-python uninstall archive wheel sdist js page \
	crate release clean FORCE

programs := semver-parser release-filter compare-ranges
checkers := check-lock-file compare-requirements
version := $(file < VERSION)
date := $(shell date -u +%F -d "$$(sed -n '/^ -- /{s/.*>  //p;q}' debian/changelog)")
archive := semver-parser-$(version)-linux-$(shell uname -m)
# A program that was linked with the library needs one whose version has the same first number and,
# while that is 0, also the same second one.
number := $(firstword $(subst ., ,$(version)))
soname := libsemver_parser.so.$(if $(filter 0,$(number)),$(basename $(version)),$(number))
shared := libsemver_parser.so.$(version)
# What cargo builds has its own directory, since it is built without this directory's path in it.
built := out/cargo/release
capi := rust/capi

# How recipes begin. `to` is the directory to install into.
begin = self=make top=$$PWD && . tools/built.sh && begin && umask 022; \
	case $$PREFIX in '') refuse 'PREFIX is empty' ;; /*) ;; *) PREFIX=$$PWD/$$PREFIX ;; esac; \
	PREFIX=$${PREFIX%/} to=$${DESTDIR-}$${PREFIX%/}

built_files := $(built)/semver-parser out/lib/$(shared) out/lib/libsemver_parser.a
all: $(built_files)
	printf 'built %s\n' $(programs:%=$(built)/%) $(filter out/lib/%,$^)
clean:
	rm -rf out/cargo out/lib out/man.tar
	echo 'removed out/cargo, out/lib and out/man.tar'

# cargo is always called, and determines what is out of date. It doesn't touch what it doesn't
# rebuild.
$(built)/semver-parser: FORCE
	$(begin)
	build -p semver-parser-programs --bins
$(built)/libsemver_parser.a: FORCE
	$(begin)
	build -p semver-parser-capi --no-default-features

# Both forms of the C library are one object file, with what the functions of the header need. It
# needs only the system's C library, and exports only the names in semver_parser.map.
out/lib/$(shared) out/lib/libsemver_parser.a &: $(built)/libsemver_parser.a \
		$(capi)/semver_parser.map
	$(begin)
	may_build libsemver_parser
	command -v $(firstword $(CC)) > /dev/null ||
		refuse 'needs the command $(firstword $(CC)) (Debian: apt-get install gcc)'
	mkdir -p out/lib
	cp $(built)/libsemver_parser.a $(capi)/semver_parser.map "$$work"
	cd "$$work"
	sed -n 's/^ *\(semver_parser_[a-z_]*\);$$/\1/p' semver_parser.map > calls
	beside ld -r -o joined.o $$(sed 's/^/-u /' calls) libsemver_parser.a
	objcopy --strip-debug --keep-global-symbols=calls joined.o semver_parser.o
	rm libsemver_parser.a
	ar rcD libsemver_parser.a semver_parser.o
	beside $(CC) $(LDFLAGS) -shared -o $(shared) -Wl,-soname,$(soname) -Wl,--gc-sections \
		-Wl,--version-script=semver_parser.map -Wl,--no-undefined-version \
		-Wl,-z,defs,-z,text,-z,noexecstack,-z,relro,-z,now semver_parser.o
	mv $(shared) libsemver_parser.a "$$top/out/lib"

# All manual pages. They are packed, because some are links to others, and `rt ci` refuses a
# directory that has a link.
out/man.tar: $(wildcard docs/manual/*.md) rust/docs/RANGES.md $(capi)/include/semver_parser.h \
		tools/make-manuals.py tools/roff.py VERSION debian/changelog
	$(begin)
	command -v python3 > /dev/null || refuse 'needs the command python3'
	python3 tools/make-manuals.py $(version) $(date) "$$work/man"
	mkdir -p out
	tar -cf $@ -C "$$work" man

# Installs below DESTDIR and PREFIX.
stage stage-python: $(built_files) out/man.tar
	$(begin)
	install -D -t "$$to/bin" $(programs:%=$(built)/%)
	install -D -m 644 -t "$$to/include" $(capi)/include/semver_parser.h
	install -D -m 644 -t "$$to/$(LIBDIR)" out/lib/$(shared) out/lib/libsemver_parser.a
	for name in $(soname) libsemver_parser.so; do ln -sf $(shared) "$$to/$(LIBDIR)/$$name"; done
	mkdir -p "$$to/$(LIBDIR)/pkgconfig" "$$to/share/man/man3"
	prefix=$$(printf '%s\n' "$$PREFIX" | sed 's/[ \\$$"'\'']/\\&/g')
	printf '%s\n' "prefix=$$prefix" 'libdir=$${prefix}/$(LIBDIR)' 'includedir=$${prefix}/include' \
		'Name: semver_parser' 'Version: $(version)' 'Libs: -L$${libdir} -lsemver_parser' \
		'Cflags: -I$${includedir}' 'Description: versions and ranges of Cargo and npm' \
		> "$$to/$(LIBDIR)/pkgconfig/semver_parser.pc"
	if [ $@ = stage-python ]; then
		modules=$$to/$$PACKAGES
		for file in $$(cd python && find semver_parser -name '*.py' -o -name py.typed); do
			install -D -m 644 python/$$file "$$modules/$$file"
		done
		up=../$$(echo "$$PACKAGES" | sed 's:[^/][^/]*:..:g')
		ln -sf "$$up/$(LIBDIR)/$(soname)" "$$modules/semver_parser/$(soname)"
		for name in $(checkers); do
			sed "/^PACKAGES/s:\.\.:../$$PACKAGES:" python/bin/$$name > "$$to/bin/$$name"
			chmod 755 "$$to/bin/$$name"
		done
	fi
	tar -xf out/man.tar -C "$$work"
	install -D -m 644 -t "$$to/share/man/man1" $(programs:%="$$work/man/%.1") \
		$(if $(filter %-python,$@),$(checkers:%="$$work/man/%.1"))
	cp -P "$$work"/man/*.3 "$$to/share/man/man3"
	install -D -m 644 -t "$$to/share/man/man7" "$$work/man/semver-ranges.7"
	for name in $(filter-out semver-parser,$(programs)) $(if $(filter %-python,$@),$(checkers)); do
		install -D -m 644 tools/completions/$$name.bash "$$to/share/bash-completion/completions/$$name"
		install -D -m 644 tools/completions/_$$name "$$to/$(ZSHDIR)/_$$name"
	done

# Everything is made in a temporary directory first, and then put where it belongs.
install install-python:
	$(begin)
	may_write "$$to"
	may_ask || :
	if [ $@ = install-python ]; then
		[ -e python/semver_parser ] || refuse "there is no directory $$top/python/semver_parser"
		PACKAGES=$$(python3 -c 'import site, sys, sysconfig
	prefix = sys.argv[1]
	known = [*site.getsitepackages(), site.getusersitepackages()]
	known += [sysconfig.get_path("purelib", "posix_prefix", {"base": prefix})]
	print(next(it for it in known if it.startswith(prefix + "lib/"))[len(prefix):])' "$$PREFIX/")
	fi
	export PACKAGES DESTDIR="$$work/tree"
	again stage$(@:install%=%)
	put_all "$$work/tree$$PREFIX"
	case $$to in /usr | /usr/local) ldconfig 2> /dev/null || : ;; esac
	[ "$$to" != "$$PREFIX" ] || say_what_to_set $(LIBDIR) "$${PACKAGES-}"

uninstall:
	$(begin)
	remove_all
	case $$to in /usr | /usr/local) ldconfig 2> /dev/null || : ;; esac

# The archive is the same byte for byte if the commit, the compilers and the tools are the same.
archive:
	$(begin)
	date=$${SOURCE_DATE_EPOCH-$$(git log -1 --format=%ct 2> /dev/null)} || date=''
	[ "$$date" -ge 0 ] 2> /dev/null || refuse 'cannot tell the time of the last commit: set' \
		'SOURCE_DATE_EPOCH to seconds since 1970'
	may_write "$$OUT"
	export DESTDIR="$$work" PREFIX=/$(archive) PACKAGES=lib/python3/dist-packages
	again stage-python
	cd "$$work/$(archive)"
	strip --strip-unneeded --remove-section=.comment $(programs:%=bin/%) lib/$(shared)
	strip --strip-debug --remove-section=.comment -D lib/libsemver_parser.a
	sed -i 's:^prefix=.*:prefix=$${pcfiledir}/../..:' lib/pkgconfig/semver_parser.pc
	install -D -m 644 -t share/doc/semver-parser-proved "$$top"/LICENSE-*
	cd "$$top"
	tar -C "$$work" --sort=name --format=gnu --mtime="@$$date" --owner=0 --group=0 \
		--numeric-owner -cf "$$work/tar" $(archive)
	gzip -n -9 < "$$work/tar" > "$$work/$(archive).tar.gz"
	mkdir -p "$$OUT" && to=$$OUT put "$$work" ./$(archive).tar.gz
	echo "made $$OUT/$(archive).tar.gz"

# Makes the wheel with the build backend that pip uses, too. It is the same byte for byte if its
# files are.
wheel sdist:
	$(begin)
	may_write "$$OUT"
	[ $@ = sdist ] || may_cargo
	command -v python3 > /dev/null || refuse 'needs the command python3'
	name=$$(TMPDIR=$$work python3 tools/make-wheel.py $(if $(filter sdist,$@),--sdist) "$$work")
	mkdir -p "$$OUT" && to=$$OUT put "$$work" "./$$name"
	echo "made $$OUT/$$name"

# The JavaScript package and the page, from the module for WebAssembly that cargo builds.
js:
	tools/make-js.sh package "$(OUT)"

page:
	tools/make-js.sh page "$(OUT)"

# What `cargo package` makes from a clone, and what the tests read from crates/. This doesn't need
# git, and runs no tests.
crate:
	$(begin)
	may_write "$$OUT"
	may_cargo
	data=$$work/crate/tests/data
	cp -R rust "$$work/crate"
	mkdir -p "$$data/replayed_cases" "$$data/library_tests" "$$data/filter_tests"
	cp crates/replayed_cases/stdin crates/replayed_cases/stdout "$$data/replayed_cases"
	for name in library_tests filter_tests; do
		cp crates/$$name/stdout crates/$$name/requests "$$data/$$name"
	done
	cargo package --quiet --offline --allow-dirty --no-verify --target-dir "$$work/target" \
		--manifest-path "$$work/crate/Cargo.toml" 2> "$$work/notes" ||
		{ cat "$$work/notes" >&2; exit 2; }
	name=semver-parser-proved-$(version).crate
	mkdir -p "$$OUT" && to=$$OUT put "$$work/target/package" "./$$name"
	echo "made $$OUT/$$name"

# Makes all that is published. The Debian packages are built in a copy of the files in git, with any
# cargo (-d).
release:
	$(begin)
	may_write "$$OUT"
	for tool in npm=npm dpkg-buildpackage=dpkg-dev dh=debhelper dh_python3=dh-python git=git; do
		command -v "$${tool%=*}" > /dev/null ||
			refuse "needs the command $${tool%=*} (Debian: apt-get install $${tool#*=})"
	done
	rust/wasm/build.sh --check
	export SOURCE_DATE_EPOCH=$${SOURCE_DATE_EPOCH-$$(git log -1 --format=%ct)}
	out=$$OUT made=$$work/made
	export OUT="$$made"
	mkdir "$$made" "$$work/source"
	for goal in crate wheel sdist js archive; do again $$goal > "$$work/said"; done
	git ls-files -z | tar --null -T - --mtime="@$$SOURCE_DATE_EPOCH" -cf - |
		tar -C "$$work/source" -xf -
	cd "$$work/source"
	beside dpkg-buildpackage -b -us -uc -d > "$$work/notes" 2>&1 || { cat "$$work/notes" >&2; exit 2; }
	mv "$$work"/*.deb "$$made"
	(cd "$$made" && LC_ALL=C sha256sum -- * > "$$work/sums" && mv "$$work/sums" SHA256SUMS)
	cd "$$top" && mkdir -p "$$out" && to=$$out
	for name in $$(ls "$$made"); do put "$$made" "./$$name" && echo "made $$out/$$name"; done
