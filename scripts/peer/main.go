// peer: what Go's golang.org/x/mod/sumdb/tlog takes for the work of this repository's program. scripts/measure builds and runs it.
//
//	peer verify FOLDER          reads a log's folder file by file, and verifies each up to the checkpoint's root
//	peer follow FOLDER COPY     so too, and writes what is new of it into COPY, the checkpoint last, all flushed by one syncfs
//	peer build FOLDER <ENTRIES  writes the tiles, the bundles and the text of the checkpoint of entries, each behind its length in two bytes
//	peer ask PORT N <PATHS      asks a server on this machine for each path, over a connection of its own, N at once, and prints the seconds
//	peer fetch URL COPY N [PEM] follows a log of a server into a new folder by N requests at once, over connections that are kept; PEM has
//	                            certificates to trust (scripts/line)
package main

import (
	"bytes"
	"crypto/sha256"
	"encoding/base64"
	"encoding/binary"
	"fmt"
	"io"
	"log"
	"net"
	"os"
	"os/exec"
	"path/filepath"
	"strconv"
	"strings"
	"time"

	"golang.org/x/mod/sumdb/tlog"
)

// A tile has 2^height hashes.
const height = 8

// path is the place of a tile or a bundle under the folder (C2SP tlog-tiles).
func path(folder, kind string, index int64, width int) string {
	name := fmt.Sprintf("%03d", index%1000)
	for index >= 1000 {
		index /= 1000
		name = fmt.Sprintf("x%03d/%s", index%1000, name)
	}
	if width < 1<<height {
		name += fmt.Sprintf(".p/%d", width)
	}
	return filepath.Join(folder, "tile", kind, name)
}

// bundle cuts a bundle into its entries.
func bundle(data []byte) ([][]byte, error) {
	var entries [][]byte
	for len(data) > 0 {
		if len(data) < 2 || len(data) < 2+int(binary.BigEndian.Uint16(data)) {
			return nil, fmt.Errorf("the last entry is cut off")
		}
		end := 2 + int(binary.BigEndian.Uint16(data))
		entries = append(entries, data[2:end])
		data = data[end:]
	}
	return entries, nil
}

// checkpoint reads the checkpoint of a folder.
func checkpoint(folder string) (text []byte, size int64, root tlog.Hash, err error) {
	if text, err = os.ReadFile(filepath.Join(folder, "checkpoint")); err != nil {
		return
	}
	size, root, err = stated(text)
	return
}

// stated reads the size and the root of a checkpoint. Its signatures are not looked at.
func stated(text []byte) (size int64, root tlog.Hash, err error) {
	lines := strings.Split(string(text), "\n")
	if len(lines) < 4 {
		return 0, root, fmt.Errorf("no checkpoint: %.40q", text)
	}
	if size, err = strconv.ParseInt(lines[1], 10, 64); err == nil {
		root, err = tlog.ParseHash(lines[2])
	}
	return
}

// edge is the right edge of a tree: of each level of tiles, the hashes of the last one, and how many full ones are before it.
type edge struct {
	rows [8][]tlog.Hash
	full [8]int64
}

// top gives the hash above a power of two of hashes.
func top(row []tlog.Hash) tlog.Hash {
	if len(row) == 1 {
		return row[0]
	}
	return tlog.NodeHash(top(row[:len(row)/2]), top(row[len(row)/2:]))
}

// root gives the hash of the whole tree. Its subtrees of a power of two come from the right, the smallest first.
func (e *edge) root() tlog.Hash {
	var all tlog.Hash
	some := false
	for _, row := range e.rows {
		for end, width := len(row), 1; end > 0; width *= 2 {
			if end&width == 0 {
				continue
			}
			part := top(row[end-width : end])
			if some {
				part = tlog.NodeHash(part, all)
			}
			all, some = part, true
			end -= width
		}
	}
	if !some {
		return sha256.Sum256(nil)
	}
	return all
}

// add adds a hash to a level, and hands on each tile that is full by that.
func (e *edge) add(level int, hash tlog.Hash, tile func(level int) error) error {
	e.rows[level] = append(e.rows[level], hash)
	if len(e.rows[level]) < 1<<height {
		return nil
	}
	if err := tile(level); err != nil {
		return err
	}
	hash = top(e.rows[level])
	e.rows[level] = e.rows[level][:0]
	e.full[level]++
	return e.add(level+1, hash, tile)
}

// copied reads the edge of a copy that is there, whose checkpoint it has to lead to. It is empty where there is no copy.
func copied(to string) (e *edge, size int64, err error) {
	e = &edge{}
	_, size, root, err := checkpoint(to)
	if os.IsNotExist(err) {
		return e, 0, nil
	}
	if err != nil {
		return nil, 0, err
	}
	for level := range e.rows {
		hashes := size >> (height * level)
		width := int(hashes % (1 << height))
		e.full[level] = hashes >> height
		if width == 0 {
			continue
		}
		data, err := os.ReadFile(path(to, strconv.Itoa(level), hashes>>height, width))
		if err != nil || len(data) != width*tlog.HashSize {
			return nil, 0, fmt.Errorf("%s lacks its edge: %v", to, err)
		}
		for ; len(data) > 0; data = data[tlog.HashSize:] {
			e.rows[level] = append(e.rows[level], *(*tlog.Hash)(data))
		}
	}
	if e.root() != root {
		return nil, 0, fmt.Errorf("the edge of %s does not lead to its checkpoint", to)
	}
	return e, size, nil
}

// buffer has the bytes of the file that was read last. The longest bundle has 256 entries of 65,535 bytes.
var buffer [256*(2+65535) + 1]byte

// read gives the bytes of a file, until the next is read.
func read(name string) ([]byte, error) {
	file, err := os.Open(name)
	if err != nil {
		return nil, err
	}
	defer file.Close()
	count := 0
	for count < len(buffer) {
		n, err := file.Read(buffer[count:])
		count += n
		if err == io.EOF {
			return buffer[:count], nil
		}
		if err != nil {
			return nil, err
		}
	}
	return nil, fmt.Errorf("%s is too long", name)
}

// each hands on the entries of a bundle, and gives how many there are.
func each(data []byte, entry func(at int, entry []byte) error) (int, error) {
	at := 0
	for ; len(data) > 0; at++ {
		if len(data) < 2 || len(data) < 2+int(binary.BigEndian.Uint16(data)) {
			return at, fmt.Errorf("the last entry is cut off")
		}
		end := 2 + int(binary.BigEndian.Uint16(data))
		if err := entry(at, data[2:end]); err != nil {
			return at, err
		}
		data = data[end:]
	}
	return at, nil
}

// follow reads a log's folder file by file, and verifies each file up to the root of its checkpoint. It writes what it read into the
// folder `to`, which may have a copy of an older checkpoint, and the checkpoint last; nothing where `to` has no name.
//
// Nothing is taken from x/mod's TileHashReader: that of version 0.7 looks at no parent of the first full tiles that it is asked for.
func follow(from, to string) error {
	text, size, root, err := checkpoint(from)
	if err != nil {
		return err
	}
	e, done, err := &edge{}, int64(0), error(nil)
	keep := func(string, []byte) error { return nil }
	if to != "" {
		if e, done, err = copied(to); err != nil {
			return err
		}
		if size < done {
			return fmt.Errorf("%s has %d entries already", to, done)
		}
		keep = func(name string, data []byte) error { return put(to+strings.TrimPrefix(name, from), data) }
	}
	// tile compares a tile of the folder with the hashes that the entries have.
	tile := func(level int) error {
		name := path(from, strconv.Itoa(level), e.full[level], len(e.rows[level]))
		data, err := read(name)
		if err != nil {
			return err
		}
		if len(data) != len(e.rows[level])*tlog.HashSize {
			return fmt.Errorf("%s has another length", name)
		}
		for i, hash := range e.rows[level] {
			if *(*tlog.Hash)(data[i*tlog.HashSize:]) != hash {
				return fmt.Errorf("%s differs at hash %d", name, i)
			}
		}
		return keep(name, data)
	}
	for first := done &^ (1<<height - 1); first < size; first += 1 << height {
		width := int(min(1<<height, size-first))
		name := path(from, "entries", first>>height, width)
		data, err := read(name)
		if err != nil {
			return err
		}
		var hashes [1 << height]tlog.Hash
		count, err := each(data, func(at int, entry []byte) error {
			if at >= width {
				return fmt.Errorf("more entries than %d", width)
			}
			hashes[at] = tlog.RecordHash(entry)
			return nil
		})
		if err != nil || count != width {
			return fmt.Errorf("%s is no bundle of %d entries: %v", name, width, err)
		}
		// The checkpoint is put last, so a bundle of another log in the copy is never given out.
		if err := keep(name, data); err != nil {
			return err
		}
		for at, hash := range hashes[:width] {
			if first+int64(at) >= done {
				err = e.add(0, hash, tile)
			} else if e.rows[0][at] != hash {
				err = fmt.Errorf("entry %d is another one than in %s", first+int64(at), to)
			}
			if err != nil {
				return err
			}
		}
	}
	if e.root() != root {
		return fmt.Errorf("the entries have the root %v, and the checkpoint %v", e.root(), root)
	}
	for level, row := range e.rows {
		if len(row) > 0 && size > done {
			if err := tile(level); err != nil {
				return err
			}
		}
	}
	if to != "" {
		// All files are on the device before the checkpoint is.
		if err := exec.Command("sync", "-f", to).Run(); err != nil {
			return err
		}
		if err := put(filepath.Join(to, "checkpoint"), text); err != nil {
			return err
		}
	}
	fmt.Println(size, root)
	return nil
}

func min(a, b int64) int64 {
	if a < b {
		return a
	}
	return b
}

// made is the folder that was made last.
var made string

// put writes a file.
func put(name string, data []byte) error {
	if folder := filepath.Dir(name); folder != made {
		if err := os.MkdirAll(folder, 0o777); err != nil {
			return err
		}
		made = folder
	}
	return os.WriteFile(name, data, 0o666)
}

// build writes the log of the entries.
func build(name string) error {
	input, err := io.ReadAll(os.Stdin)
	if err != nil {
		return err
	}
	entries, err := bundle(input)
	if err != nil {
		return err
	}
	size := int64(len(entries))
	var stored []tlog.Hash
	reader := tlog.HashReaderFunc(func(indexes []int64) ([]tlog.Hash, error) {
		hashes := make([]tlog.Hash, len(indexes))
		for i, index := range indexes {
			hashes[i] = stored[index]
		}
		return hashes, nil
	})
	for i, entry := range entries {
		hashes, err := tlog.StoredHashes(int64(i), entry, reader)
		if err != nil {
			return err
		}
		stored = append(stored, hashes...)
	}
	for level, hashes := 0, size; hashes > 0; level, hashes = level+1, hashes>>height {
		for first := int64(0); first < hashes; first += 1 << height {
			tile := tlog.Tile{H: height, L: level, N: first >> height, W: int(min(1<<height, hashes-first))}
			data, err := tlog.ReadTileData(tile, reader)
			if err != nil {
				return err
			}
			if err := put(path(name, strconv.Itoa(level), tile.N, tile.W), data); err != nil {
				return err
			}
		}
	}
	for at, first := 0, int64(0); first < size; first += 1 << height {
		width := int(min(1<<height, size-first))
		end := at
		for _, entry := range entries[first : first+int64(width)] {
			end += 2 + len(entry)
		}
		if err := put(path(name, "entries", first>>height, width), input[at:end]); err != nil {
			return err
		}
		at = end
	}
	root, err := tlog.TreeHash(size, reader)
	if err != nil {
		return err
	}
	return put(filepath.Join(name, "checkpoint"), []byte(fmt.Sprintf("peer\n%d\n%s\n", size, base64.StdEncoding.EncodeToString(root[:]))))
}

// get asks for one path, and fails where the status is not 200.
func get(address, path string) error {
	stream, err := net.Dial("tcp", address)
	if err != nil {
		return err
	}
	defer stream.Close()
	if _, err := fmt.Fprintf(stream, "GET /%s HTTP/1.1\r\nHost: localhost\r\nConnection: close\r\n\r\n", path); err != nil {
		return err
	}
	reply, err := io.ReadAll(stream)
	if err != nil {
		return err
	}
	if !bytes.HasPrefix(reply, []byte("HTTP/1.1 200 ")) {
		return fmt.Errorf("%s: %.40q", path, reply)
	}
	return nil
}

// ask asks for all paths of the input, so many at once.
func ask(port, count string) error {
	input, err := io.ReadAll(os.Stdin)
	if err != nil {
		return err
	}
	clients, err := strconv.Atoi(count)
	if err != nil {
		return err
	}
	paths := make(chan string)
	failed := make(chan error, clients)
	begin := time.Now()
	for i := 0; i < clients; i++ {
		go func() {
			var err error
			for path := range paths {
				if err == nil {
					err = get("127.0.0.1:"+port, path)
				}
			}
			failed <- err
		}()
	}
	for _, path := range strings.Fields(string(input)) {
		paths <- path
	}
	close(paths)
	for i := 0; i < clients; i++ {
		if err := <-failed; err != nil {
			return err
		}
	}
	fmt.Printf("%.3f\n", time.Since(begin).Seconds())
	return nil
}

func main() {
	log.SetFlags(0)
	var err error
	switch {
	case len(os.Args) == 3 && os.Args[1] == "verify":
		err = follow(os.Args[2], "")
	case len(os.Args) == 4 && os.Args[1] == "follow":
		err = follow(os.Args[2], os.Args[3])
	case len(os.Args) == 3 && os.Args[1] == "build":
		err = build(os.Args[2])
	case len(os.Args) == 4 && os.Args[1] == "ask":
		err = ask(os.Args[2], os.Args[3])
	case len(os.Args) == 5 && os.Args[1] == "fetch":
		err = fetch(os.Args[2], os.Args[3], os.Args[4], "")
	case len(os.Args) == 6 && os.Args[1] == "fetch":
		err = fetch(os.Args[2], os.Args[3], os.Args[4], os.Args[5])
	default:
		log.Fatal("usage: peer verify FOLDER | follow FOLDER COPY | build FOLDER | ask PORT N | fetch URL COPY N [PEM]")
	}
	if err != nil {
		log.Fatal(err)
	}
}
