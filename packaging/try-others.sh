# Sourced by packaging/try: the archive as an ordinary user, the wheel, and the library.
check "docs/INSTALL.md, The programs, without root" \
    as_user <<< "$(block 'The programs, without root')"
check "the archive: man pages; nothing is left after --uninstall" as_user << 'END'
MANPATH=~/.local/share/man man -w dfrd
cd dfr-*/
~/.local/bin/comtrade --version
bin/comtrade --version
./install.sh --uninstall ~/.local
[ -z "$(find ~/.local -type f)" ]
END
check "the archive: DESTDIR" as_user << 'END'
cd dfr-*/
DESTDIR=/tmp/stage ./install.sh /usr
/tmp/stage/usr/bin/dfrd --version
[ ! -e /usr/bin/dfrd ]
END
check "docs/INSTALL.md, Python" as_user <<< "$(block Python)"
check "the wheel with numpy and pandas" as_user << 'END'
. comtrade/bin/activate
python3 << PYTHON
import dfr_comtrade, numpy
record = dfr_comtrade.read("rec1")
assert type(record.times) is numpy.ndarray and len(record.to_pandas()) == len(record) == 50
dfr_comtrade.write("copy", record)
PYTHON
cmp rec1.cfg copy.cfg
cmp rec1.dat copy.dat
pip show dfr-comtrade
END
check "the wheel with the extra arrays: Debian's numpy and pandas do" as_user << 'END'
. comtrade/bin/activate
pip install --no-index --force-reinstall --no-deps dfr_comtrade-*.whl
pip install --no-index "$(echo dfr_comtrade-*.whl)[arrays]"
END
check "the sdist, with the library of the wheel" as_user << 'END'
library=$(echo comtrade/lib/python3*/site-packages/dfr_comtrade/libcomtrade.so)
python3 -m venv other
export DFR_COMTRADE_LIBRARY=$PWD/$library
other/bin/pip install --no-index --no-build-isolation dfr_comtrade-*.tar.gz
unset DFR_COMTRADE_LIBRARY
other/bin/python -c 'import dfr_comtrade; print(len(dfr_comtrade.read("rec1")))' | grep -x 50
END

check "the type hints of the wheel: mypy --strict" as_user << 'END'
sed -n '/^PROGRAM = /,/^"""$/p' sources/python/tests/test_types.py | sed '1d; $d' > program.py
mypy --strict --python-executable comtrade/bin/python program.py
END
check "an editable install: a change of the sources takes effect at once" as_user << 'END'
cp comtrade/lib/python3*/site-packages/dfr_comtrade/libcomtrade.so sources/python/dfr_comtrade/
python3 -m venv editable
editable/bin/pip install --no-index -e sources/python
echo 'ROWS = len(read("rec1"))' >> sources/python/dfr_comtrade/__init__.py
editable/bin/python -c 'import dfr_comtrade as d; print(d.ROWS, d.__file__)' |
    grep -x "50 $HOME/sources/python/dfr_comtrade/__init__.py"
editable/bin/pip uninstall -y dfr-comtrade
[ -z "$(editable/bin/pip list | grep dfr)" ]
END

check "docs/INSTALL.md, C, C++ and Rust" inside <<< "$(block 'C, C++ and Rust')"
check "the library: C99, C17, C++17 without a warning" inside << 'END'
for compiler in 'cc -std=c99' 'cc -std=c17' 'c++ -x c++ -std=c++17'; do
    $compiler -Wall -Wextra -Werror sample.c $(pkg-config --cflags --libs comtrade) -o sample
    ./sample rec1.cfg rec1.dat | cmp - sample.printed
done
END
check "the library: CMake, shared and static" inside << 'END'
mkdir -p /tmp/cmake
cd /tmp/cmake
cp /root/dist/sample.c .
cat > CMakeLists.txt << LISTS
cmake_minimum_required(VERSION 3.10)
project(sample C)
find_package(comtrade 1.0 REQUIRED)
add_executable(shared sample.c)
target_link_libraries(shared comtrade::comtrade)
add_executable(static sample.c)
target_link_libraries(static comtrade::static)
LISTS
cmake .
make
for name in shared static; do
    ./$name /root/dist/rec1.cfg /root/dist/rec1.dat | cmp - /root/dist/sample.printed
done
END
check "the library's archive, moved, with nothing of the deb" inside << 'END'
mkdir -p /opt/moved
tar -C /opt/moved --strip-components=1 -xzf libcomtrade-*-linux-x86_64.tar.gz
apt-get purge -y libcomtrade1 libcomtrade-dev
export PKG_CONFIG_PATH=/opt/moved/lib/pkgconfig LD_LIBRARY_PATH=/opt/moved/lib
cc sample.c $(pkg-config --cflags --libs comtrade) -o sample
ldd ./sample | grep /opt/moved
./sample rec1.cfg rec1.dat | cmp - sample.printed
END

# The one part that is tried on this machine: a clean Debian has no Rust 1.82.
build_crates() {
    mkdir "$work/crates"
    tar -C "$work/crates" --strip-components=1 -xzf "$dist"/libcomtrade-*-linux-x86_64.tar.gz
    env -u COMTRADE_LIB CARGO_TARGET_DIR="$work/target" cargo build --offline --quiet --examples \
        --manifest-path "$work/crates/rust/Cargo.toml"
    "$work/target/debug/examples/sample" "$pairs/plain.cfg" "$pairs/plain.dat" |
        cmp - "$pairs/plain.sample"
}
if command -v cargo > "$work/said"; then
    check "the archive's Rust crates build offline, with the library next to them" build_crates
else
    echo "skipped the archive's Rust crates: no cargo"
fi
