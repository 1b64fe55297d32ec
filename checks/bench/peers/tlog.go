// A log over golang.org/x/mod/sumdb/tlog: `tlog append DIR` reads batches, a line with their number of lines and then
// these, and says `ok` when a batch is durable; `tlog verify DIR` makes all hashes again and compares them.
package main

import (
	"bufio"
	"bytes"
	"fmt"
	"os"
	"path/filepath"
	"syscall"

	"golang.org/x/mod/sumdb/tlog"
)

// The stored hashes, as tlog numbers them.
type hashes []tlog.Hash

func (h *hashes) ReadHashes(indexes []int64) ([]tlog.Hash, error) {
	found := make([]tlog.Hash, len(indexes))
	for at, index := range indexes {
		found[at] = (*h)[index]
	}
	return found, nil
}

func check(err error) {
	if err != nil {
		fmt.Fprintln(os.Stderr, "tlog:", err)
		os.Exit(1)
	}
}

func create(dir, name string) *os.File {
	file, err := os.Create(filepath.Join(dir, name))
	check(err)
	return file
}

func durable(file *os.File, text []byte) {
	_, err := file.Write(text)
	check(err)
	check(syscall.Fdatasync(int(file.Fd())))
}

// The records of a batch, their stored hashes, and the head. Hashes can be made again from the records, so they aren't
// synced.
func add(stored *hashes, count int64, lines [][]byte, records, hashed, head *os.File) int64 {
	var text, links bytes.Buffer
	for _, line := range lines {
		made, err := tlog.StoredHashes(count, line, stored)
		check(err)
		*stored = append(*stored, made...)
		for _, hash := range made {
			links.Write(hash[:])
		}
		text.Write(line)
		text.WriteByte('\n')
		count++
	}
	durable(records, text.Bytes())
	_, err := hashed.Write(links.Bytes())
	check(err)
	root, err := tlog.TreeHash(count, stored)
	check(err)
	_, err = head.Seek(0, 0)
	check(err)
	durable(head, tlog.FormatTree(tlog.Tree{N: count, Hash: root}))
	return count
}

func appendAll(dir string) {
	records, hashed, head := create(dir, "records"), create(dir, "hashes"), create(dir, "head")
	in, stored, count := bufio.NewReaderSize(os.Stdin, 1<<16), &hashes{}, int64(0)
	for {
		var size int
		if _, err := fmt.Fscanf(in, "%d\n", &size); err != nil {
			return
		}
		lines := make([][]byte, size)
		for at := range lines {
			line, err := in.ReadBytes('\n')
			check(err)
			lines[at] = line[:len(line)-1]
		}
		count = add(stored, count, lines, records, hashed, head)
		fmt.Println("ok")
	}
}

func verify(dir string) {
	records, err := os.Open(filepath.Join(dir, "records"))
	check(err)
	kept, err := os.ReadFile(filepath.Join(dir, "hashes"))
	check(err)
	stored, count, lines := &hashes{}, int64(0), bufio.NewScanner(records)
	for lines.Scan() {
		made, err := tlog.StoredHashes(count, lines.Bytes(), stored)
		check(err)
		for _, hash := range made {
			at := len(*stored) * tlog.HashSize
			if !bytes.Equal(hash[:], kept[at:at+tlog.HashSize]) {
				check(fmt.Errorf("another hash at record %d", count))
			}
			*stored = append(*stored, hash)
		}
		count++
	}
	root, err := tlog.TreeHash(count, stored)
	check(err)
	head, err := os.ReadFile(filepath.Join(dir, "head"))
	check(err)
	if !bytes.Equal(head, tlog.FormatTree(tlog.Tree{N: count, Hash: root})) {
		check(fmt.Errorf("another head"))
	}
}

func main() {
	if len(os.Args) == 3 && os.Args[1] == "append" {
		appendAll(os.Args[2])
	} else if len(os.Args) == 3 && os.Args[1] == "verify" {
		verify(os.Args[2])
	} else {
		os.Exit(2)
	}
}
