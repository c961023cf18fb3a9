# The static library and the programs are for x86-64. On another processor what links them is built with x86-64 packages of Debian's and runs
# in an emulator. Sets X86_CC, a C compiler for it, X86_RUN, what stands before a program (nothing on x86-64), and cargo's environment.
X86_CC=cc
X86_RUN=
if [ "$(uname -m)" != x86_64 ]; then
  x86_packages="rustc-web libstd-rust-web-dev:amd64 gcc-x86-64-linux-gnu libc6-dev-amd64-cross qemu-user"
  # shellcheck disable=SC2086
  if ! dpkg -s $x86_packages >/dev/null 2>&1; then
    echo "installing what builds and runs x86-64 programs here: $x86_packages"
    dpkg --add-architecture amd64
    apt-get -qq update
    DEBIAN_FRONTEND=noninteractive apt-get -qq install -y --no-install-recommends $x86_packages >/dev/null
  fi
  X86_CC=x86_64-linux-gnu-gcc
  X86_RUN=qemu-x86_64
  export RUSTC=/usr/bin/rustc RUSTDOC=/usr/bin/rustdoc
  export CARGO_BUILD_TARGET=x86_64-unknown-linux-gnu
  export CARGO_TARGET_X86_64_UNKNOWN_LINUX_GNU_LINKER=$X86_CC
  export CARGO_TARGET_X86_64_UNKNOWN_LINUX_GNU_RUNNER=$X86_RUN
fi
