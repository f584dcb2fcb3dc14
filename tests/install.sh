#!/bin/sh
# `make install` as a host's engineer uses it: the example host is built from the installed files alone, by hand, by pkg-config and by CMake.
#     tests/install.sh
# Ends with 'install: N passed, M failed', and with 0 if M is 0.
set -u
cd "$(dirname "$0")/.." || exit 2
repository=$PWD
part=install
. tests/steps.sh

prefix=$out/prefix
step "make install" make --silent install PREFIX="$prefix"
step "make install for a stage" make --silent install PREFIX=/opt/hadulmir DESTDIR="$out/stage"

# no_archive: nothing is installed where there is no archive to install
no_archive() {
    ! packaging/install build/targets/none/libhadulmir.a "$out/none" && grep -q 'no archive' "$out/log" && [ ! -e "$out/none" ]
}
step "without an archive nothing is installed" no_archive

# The example stands alone, so that no file of the repository is found by chance.
mkdir "$out/host"
cp examples/host.c "$out/host/"
cd "$out/host" || exit 2
cat >CMakeLists.txt <<'END'
cmake_minimum_required(VERSION 3.10)
project(host C)
find_package(hadulmir ${WANTED} REQUIRED)
add_executable(host host.c)
target_link_libraries(host hadulmir::hadulmir)
END

# says COMMAND...: the example, built so, writes what it has to
says() { "$@" | diff "$repository/examples/host.out" -; }

step "host.c builds from the installed files" cc -std=c99 -I"$prefix/include" host.c -L"$prefix/lib" -lhadulmir -o by-hand
step "and writes examples/host.out" says ./by-hand

export PKG_CONFIG_PATH="$prefix/lib/pkgconfig"
flags() { pkg-config "$@" hadulmir; }
step "host.c builds by pkg-config" eval 'cc -std=c99 $(flags --cflags) host.c $(flags --libs) -o by-pkg-config'
step "and writes examples/host.out" says ./by-pkg-config
version() { grep "^#define HADULMIR_VERSION_TEXT \"$(flags --modversion)\"\$" "$repository/include/hadulmir.h"; }
step "pkg-config has the header's version" version
staged() { [ "$(PKG_CONFIG_PATH="$out/stage/opt/hadulmir/lib/pkgconfig" pkg-config --variable=prefix hadulmir)" = /opt/hadulmir ]; }
step "a stage does not go into the pkg-config file" staged

# by_cmake VERSION: the example by CMake, with a version asked for
by_cmake() { rm -rf cmake && cmake -S . -B cmake -DCMAKE_PREFIX_PATH="$prefix" -DWANTED="$1" && cmake --build cmake; }
step "host.c builds by CMake" by_cmake 4.1
step "and writes examples/host.out" says cmake/host
step "a host that asks for 4.0 gets it too" by_cmake 4.0
unfit() { ! by_cmake "$1" && grep -q 'compatible with requested version' "$out/log"; }
step "CMake refuses a version that is not there" unfit 4.99
for other in 3.0 5.0; do
    step "CMake refuses another first number, $other" unfit $other
done

closing
