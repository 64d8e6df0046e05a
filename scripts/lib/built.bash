# The paths of what `make build` makes, below the top of the repository. A script sources this.
built_program=crates/command/out/command
built_tools=crates/toolbox/out/toolbox
built_library=crates/lakhdzeva/out/built
# In the folder of the library: the shared library that the loader of glibc takes in its place where the processor can run it.
faster_library=glibc-hwcaps/x86-64-v3/liblakhdzeva.so.3
