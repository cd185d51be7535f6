// build.sh replaces this file by the module.
throw new Error(
  "the WebAssembly module is not here: `bindings/javascript/build.sh DIR` makes a package with " +
    "it from the sources of Bamsturk",
);

/** The WebAssembly module, in base64. */
export const MODULE = "";

/** How many bits an address in the memory of the module has: 32 or 64. */
export const ADDRESS_BITS = 0;
