//go:build makhloeum_pkgconfig

package makhloeum

// #cgo pkg-config: makhloeum
import "C"
