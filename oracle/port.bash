# Building and running the port's programs, for the scripts that do so: source it, do not run it.

port_root=$(cd "$(dirname "${BASH_SOURCE[0]}")/.." && pwd)

# Proves and builds a program of the port, if it is not as the sources are. What is said goes to standard error. The
# toolchain builds a program by running it, so it runs once here, on no lines, to which it answers nothing.
#   build_port NAME
build_port() {
  if ! command -v rt >/dev/null; then
    echo "$1 cannot be built: the Rattle toolchain is not at hand (no rt in PATH)" >&2
    return 2
  fi
  # Standard input may be the session that is to be answered.
  (cd "$port_root/crates/$1" && rt run </dev/null >&2) || return 2
}

# Whether the machine runs the port's programs itself: they are compiled for x86-64.
port_is_native() {
  [[ $(uname -m) == x86_64 ]]
}

# Prints the folder of the Rattle toolchain.
rattle_home() {
  if [[ -n ${RATTLE_HOME:-} ]]; then
    echo "$RATTLE_HOME"
  elif command -v rt >/dev/null; then
    dirname "$(dirname "$(readlink -f "$(command -v rt)")")"
  else
    echo "the Rattle toolchain is not at hand (no rt in PATH)" >&2
    return 2
  fi
}

# Puts the words that run a built program of the port into the array port_words.
#   find_port NAME
# On a machine that is no x86-64 these name the emulator of the Rattle toolchain, with the C library that is there for
# it.
find_port() {
  local program=$port_root/crates/$1/out/$1 home tools
  port_words=("$program")
  port_is_native && return
  if ! home=$(rattle_home); then
    echo "$1 cannot be run: this machine is no x86-64, and the emulator is the toolchain's" >&2
    return 2
  fi
  tools=$home/on/$(uname -m)/toolchain
  if [[ ! -x $tools/bin/qemu-x86_64 ]]; then
    echo "$1 cannot be run: this machine is no x86-64, and there is no emulator at $tools/bin" >&2
    return 2
  fi
  # The processor that the emulator takes by itself copies memory by an instruction that it does a byte at a time. With
  # this one the C library copies by words, and a line takes a tenth of the time.
  port_words=(
    "$tools/bin/qemu-x86_64" -cpu qemu64
    "$tools/lib/ld-linux-x86-64.so.2" --library-path "$tools/lib" "$program"
  )
}
