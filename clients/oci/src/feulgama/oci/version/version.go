// Package version has the version of feulgama-oci, which is that of the program wasm-shim of the same source.
package version

// Number is what --version prints.
const Number = "0.2.0"
