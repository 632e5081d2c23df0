/* The version of these headers, which is that of the library and of the Rust crate. `VERSION` at the top of the repository is where it stands;
 * tools/version holds each other place to it. The first number changes where a call changes that was there, and with it the library's name for
 * the linker; while it is 0, the second does. */
#ifndef COARSE_VERSION_H
#define COARSE_VERSION_H

#define COARSE_VERSION_MAJOR 0
#define COARSE_VERSION_MINOR 3
#define COARSE_VERSION_PATCH 0
#define COARSE_VERSION "0.3.0"

/* The three as one number, as coarse_version() gives the library's. */
#define COARSE_VERSION_NUMBER (65536u * COARSE_VERSION_MAJOR + 256u * COARSE_VERSION_MINOR + COARSE_VERSION_PATCH)

#endif
