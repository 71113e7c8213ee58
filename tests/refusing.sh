# For the scripts that refuse allocations, which read it with `.` at the top of the repository.

# build_refuser LIBRARY [SOURCE]: builds refuse_memory.c, or the source, by the compiler and the linker of the toolchain
build_refuser() {
  local tools
  tools=$(dirname "$(readlink -f "$(command -v rt)")")/../toolchain/bin
  "$tools/clang" -O1 -fPIC -fno-builtin -c -o "$1.o" "${2:-tests/refuse_memory.c}" && "$tools/ld.lld" -shared -o "$1" "$1.o"
}
