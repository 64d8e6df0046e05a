// Makes the calls of scripts/interop to go-jose. Each line of standard input is a JSON request, and each line of
// standard output is a JSON answer.
package main

import (
	"bufio"
	"encoding/base64"
	"encoding/json"
	"errors"
	"fmt"
	"os"
	"strings"

	jose "gopkg.in/square/go-jose.v2"
)

type ask struct {
	Do, Form, Enc, Alg, Text string
	Key, Payload, Plaintext  string
	Aad                      string
	Detached                 string
	Algs, Keys               []string
}

func octets(text string) []byte {
	some, err := base64.RawURLEncoding.DecodeString(text)
	if err != nil {
		panic(err)
	}
	return some
}

func textOf(some []byte) string {
	return base64.RawURLEncoding.EncodeToString(some)
}

func sign(a ask) (string, error) {
	var keys []jose.SigningKey
	for i, alg := range a.Algs {
		keys = append(keys, jose.SigningKey{Algorithm: jose.SignatureAlgorithm(alg), Key: octets(a.Keys[i])})
	}
	signer, err := jose.NewMultiSigner(keys, nil)
	if err != nil {
		return "", err
	}
	token, err := signer.Sign(octets(a.Payload))
	if err != nil {
		return "", err
	}
	switch a.Form {
	case "compact":
		return token.CompactSerialize()
	case "compact, detached":
		return token.DetachedCompactSerialize()
	}
	return token.FullSerialize(), nil
}

func verify(a ask) (string, error) {
	key := octets(a.Key)
	if a.Detached != "" {
		token, err := jose.ParseDetached(a.Text, octets(a.Detached))
		if err != nil {
			return "", err
		}
		_, _, err = token.DetachedVerifyMulti(octets(a.Detached), key)
		return a.Detached, err
	}
	token, err := jose.ParseSigned(a.Text)
	if err != nil {
		return "", err
	}
	_, _, payload, err := token.VerifyMulti(key)
	return textOf(payload), err
}

func encrypt(a ask) (string, error) {
	var recipients []jose.Recipient
	for i, alg := range a.Algs {
		recipients = append(recipients, jose.Recipient{Algorithm: jose.KeyAlgorithm(alg), Key: octets(a.Keys[i]), PBES2Count: 1000})
	}
	options := &jose.EncrypterOptions{}
	if a.Form == "compact, zip" {
		options.Compression = jose.DEFLATE
	}
	var encrypter jose.Encrypter
	var err error
	if len(recipients) == 1 {
		encrypter, err = jose.NewEncrypter(jose.ContentEncryption(a.Enc), recipients[0], options)
	} else {
		encrypter, err = jose.NewMultiEncrypter(jose.ContentEncryption(a.Enc), recipients, options)
	}
	if err != nil {
		return "", err
	}
	var aad []byte
	if a.Aad != "" {
		aad = octets(a.Aad)
	}
	token, err := encrypter.EncryptWithAuthData(octets(a.Plaintext), aad)
	if err != nil {
		return "", err
	}
	if strings.HasPrefix(a.Form, "compact") {
		return token.CompactSerialize()
	}
	return token.FullSerialize(), nil
}

func decrypt(a ask) (string, error) {
	token, err := jose.ParseEncrypted(a.Text)
	if err != nil {
		return "", err
	}
	_, _, plaintext, err := token.DecryptMulti(octets(a.Key))
	return textOf(plaintext), err
}

// A call that panics is a refusal.
func answer(call func(ask) (string, error), a ask) (text string, err error) {
	defer func() {
		if reason := recover(); reason != nil {
			err = fmt.Errorf("panic: %v", reason)
		}
	}()
	return call(a)
}

func main() {
	calls := map[string]func(ask) (string, error){"sign": sign, "verify": verify, "encrypt": encrypt, "decrypt": decrypt}
	lines := bufio.NewScanner(os.Stdin)
	lines.Buffer(nil, 1<<24)
	out := json.NewEncoder(os.Stdout)
	for lines.Scan() {
		var a ask
		err := json.Unmarshal(lines.Bytes(), &a)
		call := calls[a.Do]
		if err == nil && call == nil {
			err = errors.New("no such call")
		}
		var text string
		if err == nil {
			text, err = answer(call, a)
		}
		if err == nil {
			out.Encode(map[string]string{"ok": text})
		} else {
			out.Encode(map[string]string{"refused": err.Error()})
		}
	}
}
