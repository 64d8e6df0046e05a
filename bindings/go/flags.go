//go:build !lakhdzeva_flags

package lakhdzeva

// #cgo pkg-config: lakhdzeva
import "C"
