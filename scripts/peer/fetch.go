package main

import (
	"bytes"
	"crypto/tls"
	"crypto/x509"
	"fmt"
	"io"
	"net/http"
	"os"
	"os/exec"
	"path/filepath"
	"strconv"
	"strings"

	"golang.org/x/mod/sumdb/tlog"
)

// client gives a client that has at most `count` connections to a server, and keeps them. It trusts the certificates of a file beside those
// of the system, where the file has a name.
func client(count int, certificates string) (*http.Client, error) {
	transport := &http.Transport{MaxConnsPerHost: count, MaxIdleConnsPerHost: count, DisableCompression: true}
	if certificates != "" {
		text, err := os.ReadFile(certificates)
		if err != nil {
			return nil, err
		}
		roots := x509.NewCertPool()
		if !roots.AppendCertsFromPEM(text) {
			return nil, fmt.Errorf("%s has no certificate", certificates)
		}
		transport.TLSClientConfig = &tls.Config{RootCAs: roots}
	}
	return &http.Client{Transport: transport}, nil
}

// load gives the body of a reply.
func load(from *http.Client, url string) ([]byte, error) {
	reply, err := from.Get(url)
	if err != nil {
		return nil, err
	}
	defer reply.Body.Close()
	if reply.StatusCode != http.StatusOK {
		return nil, fmt.Errorf("%s: %s", url, reply.Status)
	}
	return io.ReadAll(reply.Body)
}

// loaded is a reply, or why there is none.
type loaded struct {
	data []byte
	err  error
}

// inOrder asks for all of the URLs, at most `count` at once, and gives the replies in the order of the URLs.
func inOrder(from *http.Client, urls []string, count int) <-chan chan loaded {
	replies := make(chan chan loaded, 4*count)
	free := make(chan bool, count)
	go func() {
		defer close(replies)
		for _, url := range urls {
			reply := make(chan loaded, 1)
			free <- true
			replies <- reply
			go func(url string) {
				data, err := load(from, url)
				<-free
				reply <- loaded{data, err}
			}(url)
		}
	}()
	return replies
}

// needed gives the paths of the files of a log that tell all others, in the order of its entries: the bundles, behind the full tiles above
// the lowest level that begin with them. The tiles of the lowest level are made of the bundles.
func needed(size int64) []string {
	var names []string
	for first := int64(0); first < size; first += 1 << height {
		for level := 7; level > 0; level-- {
			span := int64(1) << (height * (level + 1))
			if level < 7 && first%span == 0 && first+span <= size {
				names = append(names, path("/", strconv.Itoa(level), first/span, 1<<height))
			}
		}
		names = append(names, path("/", "entries", first>>height, int(min(1<<height, size-first))))
	}
	return names
}

// partial gives the paths of the partial tiles of a log, the lowest level first.
func partial(size int64) []string {
	var names []string
	for level := 0; level < 8; level++ {
		if hashes := size >> (height * level); hashes%(1<<height) != 0 {
			names = append(names, path("/", strconv.Itoa(level), hashes>>height, int(hashes%(1<<height))))
		}
	}
	return names
}

// fetch follows a log of a server into a new folder, as a program over net/http would: by `count` requests at once, over connections that
// are kept. It fetches each file once, compares each tile with the hashes that the entries have, and the root of all with the
// checkpoint's. The signatures are not looked at. All files are flushed by one syncfs, and the checkpoint comes last.
func fetch(url, to, number, certificates string) error {
	count, err := strconv.Atoi(number)
	if err != nil || count < 1 {
		return fmt.Errorf("%s requests at once", number)
	}
	from, err := client(count, certificates)
	if err != nil {
		return err
	}
	if err := os.MkdirAll(to, 0o777); err != nil {
		return err
	}
	text, err := load(from, url+"/checkpoint")
	if err != nil {
		return err
	}
	if err := put(filepath.Join(to, "next"), text); err != nil {
		return err
	}
	size, root, err := stated(text)
	if err != nil {
		return err
	}
	names := append(partial(size), needed(size)...)
	urls := make([]string, len(names))
	for i, name := range names {
		urls[i] = url + name
	}
	e, tiles, at := &edge{}, map[string][]byte{}, 0
	tile := func(level int) error {
		name := path("/", strconv.Itoa(level), e.full[level], len(e.rows[level]))
		var data []byte
		for _, hash := range e.rows[level] {
			data = append(data, hash[:]...)
		}
		if given, is := tiles[name]; is && !bytes.Equal(given, data) {
			return fmt.Errorf("%s is false", name)
		}
		delete(tiles, name)
		return put(to+name, data)
	}
	for reply := range inOrder(from, urls, count) {
		it, name := <-reply, names[at]
		at++
		if it.err != nil {
			return it.err
		}
		if !strings.HasPrefix(name, "/tile/entries/") {
			tiles[name] = it.data
			continue
		}
		if err := put(to+name, it.data); err != nil {
			return err
		}
		if _, err := each(it.data, func(_ int, entry []byte) error { return e.add(0, tlog.RecordHash(entry), tile) }); err != nil {
			return fmt.Errorf("%s: %w", name, err)
		}
	}
	if e.root() != root {
		return fmt.Errorf("the entries have the root %v, and the checkpoint %v", e.root(), root)
	}
	for level, row := range e.rows {
		if len(row) > 0 {
			if err := tile(level); err != nil {
				return err
			}
		}
	}
	if err := exec.Command("sync", "-f", to).Run(); err != nil {
		return err
	}
	fmt.Println(size, root)
	return os.Rename(filepath.Join(to, "next"), filepath.Join(to, "checkpoint"))
}
