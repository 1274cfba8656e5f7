// check-fork: whether two signed notes of one log and a consistency proof show a fork. docs/EVIDENCE.md says why.
//
//	check-fork LOG.VKEY SMALLER.note LARGER.note [PROOF.txt]
//
// LOG.VKEY has the log's keys, one in each line. Any of them counts, for each note: a log may have changed its key.
// Without a proof both notes have to be of one size, or the smaller one of no entries, with another root than the hash of the empty list.
// It prints what it found and ends with 0 where a fork is shown, else with 1. Needs Go, and golang.org/x/mod. In a new folder with this
// file: go mod init check-fork && go mod tidy && go build
package main

import (
	"crypto/sha256"
	"fmt"
	"log"
	"os"
	"strings"

	"golang.org/x/mod/sumdb/note"
	"golang.org/x/mod/sumdb/tlog"
)

// read gives the text of a file.
func read(name string) string {
	data, err := os.ReadFile(name)
	if err != nil {
		log.Fatal(err)
	}
	return string(data)
}

// hash reads a hash in base64.
func hash(text string) tlog.Hash {
	h, err := tlog.ParseHash(text)
	if err != nil {
		log.Fatal(err)
	}
	return h
}

// verifiers reads the keys of a file, one in each line. Empty lines, and those that begin with #, are none.
func verifiers(name string) note.Verifiers {
	var keys []note.Verifier
	for _, line := range strings.Split(read(name), "\n") {
		line = strings.TrimSpace(line)
		if line == "" || line[0] == '#' {
			continue
		}
		key, err := note.NewVerifier(line)
		if err != nil {
			log.Fatalf("%s: %v", name, err)
		}
		keys = append(keys, key)
	}
	return note.VerifierList(keys...)
}

// open verifies a note, and gives the origin, the size and the root of its checkpoint.
func open(name string, keys note.Verifiers) (origin string, size int64, root tlog.Hash) {
	signed, err := note.Open([]byte(read(name)), keys)
	if err != nil {
		log.Fatalf("%s: %v", name, err)
	}
	lines := strings.Split(signed.Text, "\n")
	if len(lines) < 4 {
		log.Fatalf("%s: no checkpoint", name)
	}
	if _, err := fmt.Sscanf(lines[1], "%d", &size); err != nil {
		log.Fatalf("%s: %v", name, err)
	}
	return lines[0], size, hash(lines[2])
}

func main() {
	log.SetFlags(0)
	if len(os.Args) < 4 || len(os.Args) > 5 {
		log.Fatal("usage: check-fork LOG.VKEY SMALLER.note LARGER.note [PROOF.txt]")
	}
	keys := verifiers(os.Args[1])
	origin, size, root := open(os.Args[2], keys)
	other, largerSize, largerRoot := open(os.Args[3], keys)
	if origin != other {
		log.Fatal("the notes are of two logs")
	}
	if size == 0 && root != sha256.Sum256(nil) {
		fmt.Printf("fork: the log signed %v for no entries\n", root)
		return
	}
	if len(os.Args) == 4 {
		if size != largerSize || root == largerRoot {
			log.Fatal("no fork is shown: the sizes differ, or the roots do not")
		}
		fmt.Printf("fork: the log signed %v and %v for %d entries\n", root, largerRoot, size)
		return
	}

	// The lines of the proof: consistency, first M, root ROOT, second N, root ROOT, and path HASH for each hash.
	var first, second int64
	var own, end string
	text := read(os.Args[4])
	if _, err := fmt.Sscanf(text, "consistency\nfirst %d\nroot %s\nsecond %d\nroot %s\n", &first, &own, &second, &end); err != nil {
		log.Fatalf("%s: %v", os.Args[4], err)
	}
	var proof tlog.TreeProof
	for _, line := range strings.Split(strings.TrimSpace(text), "\n")[5:] {
		proof = append(proof, hash(strings.TrimPrefix(line, "path ")))
	}
	if first != size || second != largerSize || hash(end) != largerRoot {
		log.Fatal("no fork is shown: the proof is not of these notes")
	}
	if err := tlog.CheckTree(proof, second, largerRoot, first, hash(own)); err != nil {
		log.Fatal(err)
	}
	if hash(own) == root {
		log.Fatal("no fork is shown: the larger tree begins with the smaller one")
	}
	fmt.Printf("fork: the log signed %v for %d entries, and a tree of %d that has %v there\n", root, size, largerSize, hash(own))
}
