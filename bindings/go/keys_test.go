package lakhdzeva

import (
	"encoding/base64"
	"encoding/gob"
	"encoding/json"
	"errors"
	"fmt"
	"log"
	"os"
	"path/filepath"
	"reflect"
	"strings"
	"sync"
	"testing"
)

// The key from 0 to 31 for HS256, in which its secret is otherKey's.
const hs256Key = `{"alg":"HS256","kty":"oct","k":"AAECAwQFBgcICQoLDA0ODxAREhMUFRYXGBkaGxwdHh8"}`

func keysOf(t *testing.T, text string) *Keys {
	t.Helper()
	keys, err := NewKeys([]byte(text))
	if err != nil {
		t.Fatal(err)
	}
	return keys
}

func TestKeysOfEachSource(t *testing.T) {
	name := filepath.Join(t.TempDir(), "keys")
	if err := os.WriteFile(name, []byte(hs256Key), 0o600); err != nil {
		t.Fatal(err)
	}
	file, err := ReadKeys(name)
	if err != nil {
		t.Fatal(err)
	}
	octets := make([]byte, 32)
	for at := range octets {
		octets[at] = byte(at)
	}
	secret, err := KeysFromSecret(octets, "HS256")
	if err != nil {
		t.Fatal(err)
	}
	set := keysOf(t, `{"keys":[`+hs256Key+`,{"kty":"RSA"},`+rfc7515Key+`]}`)
	for keys, count := range map[*Keys]int{file: 1, secret: 1, set: 2, keysOf(t, hs256Key): 1} {
		got, err := keys.Verify([]byte(signedByOther))
		expect(t, got, err, "hello")
		if keys.Len() != count || !keys.CanVerify() || len(keys.Thumbprints()) != count {
			t.Errorf("%v: %d keys, want %d", keys, keys.Len(), count)
		}
		if lines, err := Thumbprints(keys.Text(), SHA256); err != nil || lines != strings.Join(keys.Thumbprints(), "\n") {
			t.Errorf("got %q and %v", lines, err)
		}
	}
	if _, err := ReadKeys(name + "2"); !errors.Is(err, os.ErrNotExist) {
		t.Errorf("got %v", err)
	}
	if err := os.WriteFile(name, []byte(hs256Key[1:]), 0o600); err != nil {
		t.Fatal(err)
	}
	if keys, err := ReadKeys(name); !errors.Is(err, ErrJSON) || keys != nil || !strings.Contains(err.Error(), name) {
		t.Errorf("got %v and %v", keys, err)
	}
}

func TestBrokenKeys(t *testing.T) {
	rows := map[string]error{
		"": ErrJSON, "secret": ErrJSON, hs256Key[:40]: ErrJSON, "{}": ErrKey, `{"kty":"RSA"}`: ErrKey, `{"keys":[]}`: ErrKey,
		`{"kty":"oct","k":"AA","n":1.5}`: ErrNumber, `{"keys":[` + hs256Key + strings.Repeat(","+hs256Key, 64) + `]}`: ErrLimit,
	}
	for text, want := range rows {
		if keys, err := NewKeys([]byte(text)); !errors.Is(err, want) || keys != nil {
			t.Errorf("%.40s: got %v and %v, want %v", text, keys, err, want)
		}
	}
	for _, secret := range []struct {
		length int
		alg    string
		want   error
	}{{31, "HS256", ErrKeyDoesNotFit}, {32, "HS512", ErrKeyDoesNotFit}, {15, "A128KW", ErrKeyDoesNotFit}, {0, "HS256", ErrKey}} {
		if keys, err := KeysFromSecret(make([]byte, secret.length), secret.alg); !errors.Is(err, secret.want) || keys != nil {
			t.Errorf("%v: got %v and %v", secret, keys, err)
		}
	}
	for _, alg := range []string{"RS256", "none", "", "HS257", "hs256", "HS256\""} {
		if keys, err := KeysFromSecret(make([]byte, 32), alg); !errors.Is(err, ErrKeyDoesNotFit) || keys != nil {
			t.Errorf("%s: got %v and %v", alg, keys, err)
		}
	}
	for _, alg := range []string{"A256KW", "A256GCM", "PBES2-HS256+A128KW"} {
		if _, err := KeysFromSecret(make([]byte, 32), alg); err != nil {
			t.Errorf("%s: %v", alg, err)
		}
	}
}

func TestKeysThatWereNotRead(t *testing.T) {
	var none Keys
	if _, err := none.Verify([]byte("a.b.c")); err != ErrKey {
		t.Errorf("keys that were not read: %v", err)
	}
	if _, err := none.Decrypt([]byte("a.b.c.d.e"), nil); err != ErrKey {
		t.Errorf("keys that were not read: %v", err)
	}
}

func TestWhatKeysCannotVerify(t *testing.T) {
	for _, text := range []string{rfc7516Key, strings.Replace(hs256Key, "HS256", "A256KW", 1), strings.Replace(hs256Key, "{", `{"use":"enc",`, 1)} {
		if keysOf(t, text).CanVerify() {
			t.Errorf("%s can verify", text)
		}
	}
	for _, text := range []string{hs256Key, rfc7515Key, `{"keys":[` + rfc7516Key + "," + hs256Key + `]}`, strings.Replace(hs256Key, "{", `{"key_ops":["verify"],`, 1)} {
		if !keysOf(t, text).CanVerify() {
			t.Errorf("%s cannot verify", text)
		}
	}
}

func TestWhatEachKeyMayDo(t *testing.T) {
	wrapping := strings.Replace(hs256Key, "{", `{"key_ops":["wrapKey"],`, 1)
	for text, uses := range map[string]string{
		hs256Key: "sv",
		strings.Replace(hs256Key, "HS256", "A256KW", 1):                         "ed",
		strings.Replace(hs256Key, `"alg":"HS256",`, `"key_ops":["verify"],`, 1): "v",
		strings.Replace(wrapping, "HS256", "A256KW", 1):                         "e",
		wrapping: "",
	} {
		may := func(use string) bool { return strings.Contains(uses, use) }
		want := KeyUses{Good: true, Sign: may("s"), Verify: may("v"), Encrypt: may("e"), Decrypt: may("d")}
		keys := keysOf(t, `{"keys":[{"kty":"RSA"},`+text+`]}`)
		if got := keys.Uses(); len(got) != 2 || got[0] != (KeyUses{}) || got[1] != want {
			t.Errorf("%s: got %v, want %v", text, got, want)
		}
		can := KeyUses{Good: true, Sign: keys.CanSign(), Verify: keys.CanVerify(), Encrypt: keys.CanEncrypt(), Decrypt: keys.CanDecrypt()}
		if can != want {
			t.Errorf("%s: got %v, want %v", text, can, want)
		}
	}
	for text, want := range map[string]error{"{": ErrJSON, `{"keys":[{}]}`: ErrKey} {
		if _, err := JudgeKeys([]byte(text)); !errors.Is(err, want) {
			t.Errorf("%s: got %v", text, err)
		}
	}
}

// With keys that were judged, no bad token is a fault of this side.
func TestBadTokensAreNoFault(t *testing.T) {
	keys := keysOf(t, hs256Key)
	header := "eyJhbGciOiJIUzI1NiJ9"
	rows := map[string]Refusal{
		signedByOther + "=": ErrBase64, "ew.aGk.AAAA": ErrJSON, "": ErrForm, "a.b": ErrForm, "e30.aGk.AAAA": ErrHeader, "eyJhbGciOiJub25lIn0.aGk.": ErrUnsupported,
		"eyJhbGciOiJIUzUxMiJ9.aGk.AAAA": ErrKeyDoesNotFit, signedByOne: ErrNotOpened, "eyJhbGciOiJIUzI1NiIsIm4iOjEuNX0.aGk.AAAA": ErrNumber,
		`{"payload":"","signatures":[` + strings.Repeat(`{"protected":"`+header+`","signature":"AAAA"},`, 256) + `{"protected":"` + header + `","signature":"AAAA"}]}`: ErrLimit,
	}
	for token, want := range rows {
		_, err := keys.Verify([]byte(token))
		var refusal Refusal
		if !errors.Is(err, want) || !errors.As(err, &refusal) || refusal.Fault() {
			t.Errorf("%.60s: got %v, want %v", token, err, want)
		}
	}
	_, err := keys.VerifyAll(2, []byte(signedByOther))
	if refusal, known := err.(Refusal); !known || refusal != ErrKey || !refusal.Fault() {
		t.Errorf("got %v", err)
	}
	for _, refusal := range []Refusal{ErrUsage, ErrRead, ErrWrite, ErrMemory, ErrRandom, ErrKey, ErrNoAlgorithm, 18} {
		if !refusal.Fault() {
			t.Errorf("%v is none", refusal)
		}
	}
}

func TestEachMethodOfKeys(t *testing.T) {
	keys, wrap := keysOf(t, hs256Key), keysOf(t, rfc7516Key)
	object, err := keys.Sign(nil, Compact, []byte("hello"))
	expect(t, object, err, signedByOther)
	got, err := keys.VerifyAll(1, object)
	expect(t, got, err, "hello")
	got, signer, err := keys.VerifySigner(object)
	expect(t, got, err, "hello")
	if signer != 0 {
		t.Errorf("got the signer %d", signer)
	}
	object, err = keys.SignDetached(nil, Compact, []byte("hello"))
	expect(t, object, err, strings.Replace(signedByOther, "aGVsbG8", "", 1))
	if err := keys.VerifyDetached(object, []byte("hello")); err != nil {
		t.Error(err)
	}
	if err := keys.VerifyAllDetached(1, object, []byte("hello")); err != nil {
		t.Error(err)
	}
	object, err = wrap.Encrypt(nil, Compact, []byte("hello"))
	if err != nil {
		t.Fatal(err)
	}
	got, err = wrap.Decrypt(object, nil)
	expect(t, got, err, "hello")
	object, ciphertext, err := wrap.EncryptDetached(nil, Object, []byte("hello"))
	if err != nil {
		t.Fatal(err)
	}
	got, err = wrap.DecryptWithIterations(object, ciphertext, 0)
	expect(t, got, err, "hello")
}

func TestTheSignerIsTheFirstKeyThatSigned(t *testing.T) {
	for place, text := range []string{hs256Key + "," + rfc7515Key, rfc7515Key + "," + hs256Key} {
		got, signer, err := VerifySigner([]byte(`{"keys":[`+text+`]}`), []byte(signedByOther))
		expect(t, got, err, "hello")
		if signer != place {
			t.Errorf("got the signer %d, want %d", signer, place)
		}
	}
	for text, want := range map[string]error{`{"keys":[{},` + hs256Key + `]}`: ErrKey, rfc7516Key: ErrKeyDoesNotFit, rfc7515Key: ErrNotOpened} {
		if payload, signer, err := VerifySigner([]byte(text), []byte(signedByOther)); payload != nil || signer != 0 || !errors.Is(err, want) {
			t.Errorf("%s: got %q, %d and %v", text, payload, signer, err)
		}
	}
}

// holder has Keys where fmt calls no Format: in fields that are not exported.
type holder struct {
	value   Keys
	pointer *Keys
	slice   []Keys
	some    []*Keys
	array   [1]Keys
	byName  map[string]Keys
	any     interface{}
	deep    *struct{ inner struct{ keys Keys } }
	Shown   Keys
	Keys
}

// spellings are the ways in which a printer may write octets.
func spellings(octets []byte) []string {
	numbers, hexadecimal := make([]string, len(octets)), make([]string, len(octets))
	for at, octet := range octets {
		numbers[at], hexadecimal[at] = fmt.Sprint(octet), fmt.Sprintf("%#x", octet)
	}
	return []string{
		string(octets), fmt.Sprintf("%x", octets), fmt.Sprintf("%X", octets), fmt.Sprintf("% x", octets), strings.Join(numbers, " "), strings.Join(numbers, ","),
		strings.Join(hexadecimal, ", "), base64.StdEncoding.EncodeToString(octets),
	}
}

func TestNothingSecretIsPrinted(t *testing.T) {
	keys := keysOf(t, hs256Key)
	held := holder{
		value: *keys, pointer: keys, slice: []Keys{*keys}, some: []*Keys{keys}, array: [1]Keys{*keys}, byName: map[string]Keys{"a": *keys}, any: *keys, Shown: *keys,
		Keys: *keys,
	}
	held.deep = &struct{ inner struct{ keys Keys } }{struct{ keys Keys }{*keys}}
	// Without the methods of Keys, which holder embeds.
	type plain holder
	bare := struct{ held plain }{plain(held)}
	values := []interface{}{
		keys, *keys, []*Keys{keys}, []Keys{*keys}, struct{ K Keys }{*keys}, held, &held, bare, &bare, held.deep, []interface{}{bare}, map[string]interface{}{"a": bare},
		held.value, held.pointer, held.slice, held.some, held.array, held.byName, held.any, struct{ k interface{} }{keys}, struct{ k interface{} }{*keys},
		fmt.Errorf("with %v", bare),
	}
	var texts []string
	for _, value := range values {
		for _, verb := range []string{"%v", "%+v", "%#v", "%s", "%q", "%x", "%X", "% x", "%#x", "%d", "%t", "%c", "%U", "%p", "%T", "%w", "%!"} {
			texts = append(texts, fmt.Sprintf(verb, value))
		}
		texts = append(texts, fmt.Sprint(value), fmt.Sprintln(value))
		var logged strings.Builder
		log.New(&logged, "", 0).Print(value)
		texts = append(texts, logged.String())
		if written, err := json.Marshal(value); err == nil {
			texts = append(texts, string(written))
		}
		var encoded strings.Builder
		// What cannot be encoded is refused.
		_ = gob.NewEncoder(&encoded).Encode(value)
		texts = append(texts, encoded.String())
	}
	secrets := spellings([]byte("AAECAwQFBgcICQoL"))
	secrets = append(secrets, spellings([]byte(keys.Thumbprints()[0]))...)
	secrets = append(secrets, spellings([]byte{0, 1, 2, 3, 4, 5, 6, 7, 8, 9, 10, 11, 12, 13, 14, 15})...)
	for _, text := range texts {
		for _, secret := range secrets {
			if strings.Contains(text, secret) {
				t.Errorf("it prints %s", text)
			}
		}
	}
	if text := fmt.Sprint(keys); text != "lakhdzeva.Keys(1)" {
		t.Errorf("got %s", text)
	}
	if written, err := json.Marshal(keys); err != nil || string(written) != "{}" {
		t.Errorf("got %s and %v", written, err)
	}
	// The printer of another package walks over fields as fmt does, and over pointers too.
	for walk := []reflect.Value{reflect.ValueOf(*keys)}; len(walk) > 0; walk = walk[1:] {
		switch at := walk[0]; at.Kind() {
		case reflect.Struct:
			for field := 0; field < at.NumField(); field++ {
				walk = append(walk, at.Field(field))
			}
		case reflect.Func:
		default:
			t.Errorf("a %v of a Keys can be read", at.Type())
		}
	}
}

// What is given is not what is kept.
func TestKeysAreCopies(t *testing.T) {
	text := []byte(hs256Key)
	keys, err := NewKeys(text)
	if err != nil {
		t.Fatal(err)
	}
	for _, octets := range [][]byte{text, keys.Text()} {
		for at := range octets {
			octets[at] = 0
		}
	}
	keys.Thumbprints()[0] = ""
	got, err := keys.Verify([]byte(signedByOther))
	expect(t, got, err, "hello")
	if keys.Thumbprints()[0] == "" {
		t.Error("a thumbprint was changed")
	}
}

func TestGoroutinesShareKeys(t *testing.T) {
	keys := keysOf(t, hs256Key)
	var group sync.WaitGroup
	for number := 0; number < 32; number++ {
		group.Add(1)
		go func() {
			defer group.Done()
			for round := 0; round < 20; round++ {
				got, err := keys.Verify([]byte(signedByOther))
				expect(t, got, err, "hello")
			}
		}()
	}
	group.Wait()
}
