// Makes the calls of scripts/interop to jose2go, which writes and reads compact form. Each line of standard input is a JSON request, and
// each line of standard output is a JSON answer.
package main

import (
	"bufio"
	"encoding/base64"
	"encoding/json"
	"fmt"
	"os"
	"strings"

	jose "github.com/dvsekhvalnov/jose2go"
)

type ask struct {
	Do, Form, Enc, Text     string
	Key, Payload, Plaintext string
	Algs, Keys              []string
}

func octets(text string) []byte {
	some, err := base64.RawURLEncoding.DecodeString(text)
	if err != nil {
		panic(err)
	}
	return some
}

// given returns the key in the type that the algorithm needs: a string for a password, octets otherwise.
func given(alg, text string) interface{} {
	if strings.HasPrefix(alg, "PBES2") {
		return string(octets(text))
	}
	return octets(text)
}

func call(a ask) (string, error) {
	switch a.Do {
	case "sign":
		return jose.SignBytes(octets(a.Payload), a.Algs[0], given(a.Algs[0], a.Keys[0]))
	case "encrypt":
		if a.Form == "compact, zip" {
			return jose.EncryptBytes(octets(a.Plaintext), a.Algs[0], a.Enc, given(a.Algs[0], a.Keys[0]), jose.Zip(jose.DEF))
		}
		return jose.EncryptBytes(octets(a.Plaintext), a.Algs[0], a.Enc, given(a.Algs[0], a.Keys[0]))
	}
	some, _, err := jose.DecodeBytes(a.Text, func(header map[string]interface{}, _ string) interface{} {
		return given(fmt.Sprint(header["alg"]), a.Key)
	})
	return base64.RawURLEncoding.EncodeToString(some), err
}

func answer(line []byte) (out map[string]string) {
	defer func() {
		if why := recover(); why != nil {
			out = map[string]string{"refused": fmt.Sprint("panic: ", why)}
		}
	}()
	var a ask
	if err := json.Unmarshal(line, &a); err != nil {
		panic(err)
	}
	ok, err := call(a)
	if err != nil {
		return map[string]string{"refused": err.Error()}
	}
	return map[string]string{"ok": ok}
}

func main() {
	lines := bufio.NewScanner(os.Stdin)
	lines.Buffer(nil, 1<<26)
	for lines.Scan() {
		out, _ := json.Marshal(answer(lines.Bytes()))
		fmt.Println(string(out))
	}
}
