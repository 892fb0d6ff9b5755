//go:build !makhloeum_pkgconfig

package makhloeum

// #cgo CFLAGS: -I${SRCDIR}
// #cgo LDFLAGS: ${SRCDIR}/libmakhloeum.a -pthread
import "C"
