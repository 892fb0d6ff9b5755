package makhloeum

// #include "makhloeum.h"
import "C"

import (
	"errors"
	"strings"
)

// listed cuts a listing, where each text is ended by a zero byte.
func listed(told []byte, err error) ([]string, error) {
	if err != nil || len(told) == 0 {
		return nil, err
	}
	return strings.Split(string(told[:len(told)-1]), "\x00"), nil
}

// askedOf returns the bytes that a call of C returns for a path.
func (h *Hierarchy) askedOf(c *call, operation, path string, do func(text *C.uint8_t, size C.size_t) C.uint32_t) ([]byte, error) {
	text := []byte(path)
	told, err := c.told(command{text: operation + " " + path, path: path, hasPath: true}, func() C.uint32_t {
		return do(at(text), C.size_t(len(text)))
	})
	return told, err
}

// Children returns the names of the groups one name below the group path, in the order of their bytes. It is refused with NoGroup. It
// takes time for each of them.
func (h *Hierarchy) Children(path string) ([]string, error) {
	c := newCall()
	defer c.end()
	return listed(h.askedOf(c, "children", path, func(text *C.uint8_t, size C.size_t) C.uint32_t {
		return C.mk_children(&h.handle, text, size, at(c.out), C.size_t(len(c.out)), &c.info)
	}))
}

// Groups returns the paths of the group path and of all below it, each before those below it. It is refused with NoGroup. It takes
// time for each group, with each name of its path.
func (h *Hierarchy) Groups(path string) ([]string, error) {
	c := newCall()
	defer c.end()
	return listed(h.askedOf(c, "groups", path, func(text *C.uint8_t, size C.size_t) C.uint32_t {
		return C.mk_subtree(&h.handle, text, size, at(c.out), C.size_t(len(c.out)), &c.info)
	}))
}

// HasGroup says whether there is a group path. It is refused with BadPath if the text is not a path.
func (h *Hierarchy) HasGroup(path string) (bool, error) {
	c := newCall()
	defer c.end()
	_, err := h.askedOf(c, "has_group", path, func(text *C.uint8_t, size C.size_t) C.uint32_t {
		return C.mk_has_group(&h.handle, text, size, &c.info)
	})
	var refused *Refused
	if errors.As(err, &refused) && refused.Code == NoGroup {
		return false, nil
	}
	return err == nil, err
}
