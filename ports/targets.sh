# shellcheck shell=bash disable=SC2034 # for the scripts here, which source it
# The processors that the library is built for, by the toolchain's own clang.

targets="x86_64 aarch64 arm riscv64 wasm32 cortex-m4 cortex-m0plus riscv32"

# choose_target NAME: sets `triple`, and the `flags` that say which of that family. A name as `uname -m` gives it will do.
choose_target() {
    case $1 in
    x86_64) triple=x86_64-unknown-linux-gnu flags="-march=x86-64 -fPIC" ;;
    aarch64) triple=aarch64-unknown-linux-gnu flags="-fPIC" ;;
    arm | armv7l) triple=armv7-unknown-linux-gnueabihf flags="-march=armv7-a -mfpu=vfpv3-d16 -fPIC" ;;
    riscv64) triple=riscv64-unknown-linux-gnu flags="-march=rv64gc -mabi=lp64d -fPIC" ;;
    riscv32) triple=riscv32-unknown-elf flags="-march=rv32imac -mabi=ilp32" ;;
    cortex-m4) triple=thumbv7em-none-eabi flags="-mcpu=cortex-m4 -mfloat-abi=soft" ;;
    cortex-m0plus) triple=thumbv6m-none-eabi flags="-mcpu=cortex-m0plus -mfloat-abi=soft" ;;
    wasm32) triple=wasm32-unknown-unknown flags= ;;
    *) echo "ports: no such target: $1; there are $targets" >&2 && return 1 ;;
    esac
}

# The toolchain's clang, which is its linkers too, by other names.
tools=$(dirname "$(rt doc)")/toolchain/bin
