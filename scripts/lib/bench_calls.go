// Measures the calls of go-jose in one process: microseconds for each, the best of many short rounds. Prints a line for each call, as bench_calls.c does.
package main

import (
	"bytes"
	"fmt"
	"os"
	"strconv"
	"time"

	jose "gopkg.in/square/go-jose.v2"
)

var keys = map[string][]byte{"HS256": make([]byte, 64), "A128KW": make([]byte, 16), "dir": make([]byte, 32)}

func must(err error) {
	if err != nil {
		panic(err)
	}
}

func sign(content []byte) string {
	signer, err := jose.NewSigner(jose.SigningKey{Algorithm: jose.HS256, Key: keys["HS256"]}, nil)
	must(err)
	token, err := signer.Sign(content)
	must(err)
	text, err := token.CompactSerialize()
	must(err)
	return text
}

func verify(text string) []byte {
	token, err := jose.ParseSigned(text)
	must(err)
	content, err := token.Verify(keys["HS256"])
	must(err)
	return content
}

func encrypt(content []byte, alg jose.KeyAlgorithm, enc jose.ContentEncryption) string {
	encrypter, err := jose.NewEncrypter(enc, jose.Recipient{Algorithm: alg, Key: keys[string(alg)]}, nil)
	must(err)
	token, err := encrypter.Encrypt(content)
	must(err)
	text, err := token.CompactSerialize()
	must(err)
	return text
}

func decrypt(text string, alg jose.KeyAlgorithm) []byte {
	token, err := jose.ParseEncrypted(text)
	must(err)
	content, err := token.Decrypt(keys[string(alg)])
	must(err)
	return content
}

func measure(name string, size int, call func()) {
	best := time.Hour
	for round := 0; round < 200; round++ {
		start := time.Now()
		for turn := 0; turn < 50; turn++ {
			call()
		}
		if each := time.Since(start) / 50; each < best {
			best = each
		}
	}
	fmt.Printf("%s\t%d\t%.2f\n", name, size, float64(best.Nanoseconds())/1000)
}

func main() {
	for _, word := range os.Args[1:] {
		size, err := strconv.Atoi(word)
		must(err)
		content := bytes.Repeat([]byte("a"), size)
		token, wrapped, direct := sign(content), encrypt(content, jose.A128KW, jose.A128CBC_HS256), encrypt(content, jose.DIRECT, jose.A256GCM)
		if !bytes.Equal(verify(token), content) || !bytes.Equal(decrypt(wrapped, jose.A128KW), content) || !bytes.Equal(decrypt(direct, jose.DIRECT), content) {
			panic("a token does not open")
		}
		measure("sign HS256", size, func() { sign(content) })
		measure("verify HS256", size, func() { verify(token) })
		measure("encrypt A128KW, A128CBC-HS256", size, func() { encrypt(content, jose.A128KW, jose.A128CBC_HS256) })
		measure("decrypt A128KW, A128CBC-HS256", size, func() { decrypt(wrapped, jose.A128KW) })
		measure("encrypt dir, A256GCM", size, func() { encrypt(content, jose.DIRECT, jose.A256GCM) })
		measure("decrypt dir, A256GCM", size, func() { decrypt(direct, jose.DIRECT) })
	}
}
