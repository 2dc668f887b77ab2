// Package modulefile looks at a file of a container's image, which nobody has to trust: no link leads out of the
// image's folder, and nothing but a regular file is opened for reading.
package modulefile

import (
	"bytes"
	"errors"
	"fmt"
	"io"
	"io/fs"
	"os"
	"strconv"

	"golang.org/x/sys/unix"
)

// Most is the number of bytes that a module may have (docs/PROTOCOL.md, "Limits").
const Most = 262144

var magic = []byte("\x00asm")

// ErrNotThere says that no file has the name. Whoever runs the program says it best.
var ErrNotThere = errors.New("there is no such file")

// Look answers the bytes of the module that path names inside the folder root, or nil if the file is another program.
// Links are followed as if root were the root of the file system. It refuses what is no regular file, and modules of
// more than Most bytes.
func Look(root, path string) ([]byte, error) {
	folder, err := unix.Open(root, unix.O_PATH|unix.O_DIRECTORY|unix.O_CLOEXEC, 0)
	if err != nil {
		return nil, &fs.PathError{Op: "open the root of the container", Path: root, Err: err}
	}
	defer unix.Close(folder)
	place, err := openInside(folder, path)
	if err != nil {
		return nil, err
	}
	defer unix.Close(place)
	return read(place, path)
}

// LookAt does the same with a path of the host, as that of a volume of one file, whose links are the host's own.
func LookAt(path string) ([]byte, error) {
	place, err := unix.Open(path, unix.O_PATH|unix.O_CLOEXEC, 0)
	if err != nil {
		return nil, lookError(path, err)
	}
	defer unix.Close(place)
	return read(place, path)
}

// openInside opens no contents (O_PATH), so neither a FIFO nor a device notices it.
func openInside(folder int, path string) (int, error) {
	how := unix.OpenHow{Flags: unix.O_PATH | unix.O_CLOEXEC, Resolve: unix.RESOLVE_IN_ROOT}
	for tries := 0; ; tries++ {
		place, err := unix.Openat2(folder, path, &how)
		switch {
		case err == nil:
			return place, nil
		case errors.Is(err, unix.EAGAIN) && tries < 100, errors.Is(err, unix.EINTR):
			continue // a name was moved while `..` was looked at
		case errors.Is(err, unix.ENOSYS):
			return -1, errors.New("the kernel has no openat2: Linux 5.6 or newer is needed")
		}
		return -1, lookError(path, err)
	}
}

func lookError(path string, err error) error {
	if errors.Is(err, unix.ENOENT) || errors.Is(err, unix.ENOTDIR) {
		return fmt.Errorf("%s: %w", path, ErrNotThere)
	}
	return &fs.PathError{Op: "look at the program of the container", Path: path, Err: err}
}

func read(place int, path string) ([]byte, error) {
	var about unix.Stat_t
	if err := unix.Fstat(place, &about); err != nil {
		return nil, &fs.PathError{Op: "look at the program of the container", Path: path, Err: err}
	}
	if about.Mode&unix.S_IFMT != unix.S_IFREG {
		return nil, fmt.Errorf("%s is %s, and a container's program is a regular file: "+
			"name the file of the module as the first word of the image's entry point", path, kind(about.Mode))
	}
	file, err := os.OpenFile("/proc/self/fd/"+strconv.Itoa(place), os.O_RDONLY|unix.O_NOCTTY|unix.O_NONBLOCK, 0)
	if err != nil {
		return nil, fmt.Errorf("open %s to read it: %w", path, err)
	}
	defer file.Close()
	return module(file, path)
}

func module(file io.Reader, path string) ([]byte, error) {
	first := make([]byte, len(magic))
	if _, err := io.ReadFull(file, first); errors.Is(err, io.EOF) || errors.Is(err, io.ErrUnexpectedEOF) {
		return nil, nil
	} else if err != nil {
		return nil, fmt.Errorf("read %s: %w", path, err)
	}
	if !bytes.Equal(first, magic) {
		return nil, nil
	}
	rest, err := io.ReadAll(io.LimitReader(file, Most-int64(len(magic))+1))
	if err != nil {
		return nil, fmt.Errorf("read %s: %w", path, err)
	}
	if len(magic)+len(rest) > Most {
		return nil, fmt.Errorf("%s is a WebAssembly module of more than %d bytes: "+
			"build it smaller, as by --strip-all of wasm-ld or -C strip=symbols of rustc", path, Most)
	}
	return append(first, rest...), nil
}

func kind(mode uint32) string {
	switch mode & unix.S_IFMT {
	case unix.S_IFDIR:
		return "a directory"
	case unix.S_IFIFO:
		return "a FIFO"
	case unix.S_IFSOCK:
		return "a socket"
	case unix.S_IFCHR, unix.S_IFBLK:
		return "a device"
	}
	return "no file that can be read"
}
