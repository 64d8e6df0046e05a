package lakhdzeva

import (
	"encoding/base64"
	"encoding/json"
	"fmt"
	"os"
	"strings"
)

// Keys is one key or a set of keys that was checked when it was read. If each of them may verify (Uses), the token is at fault in each error of
// Verify that is not a Fault. The same holds for Decrypt. Each call reads its text again. Any number of goroutines may use it at once.
//
// To verify and to decrypt, a key of a set that may not is skipped, and each token that it signed is ErrNotOpened. Len is the number of the valid
// keys, and Good is such a key. A valid key need not be usable: one of 5 bytes for HS256 verifies nothing. CanSign, CanVerify, CanEncrypt and
// CanDecrypt say whether one of the keys may. To sign and to encrypt, all of them must. A service that verifies tokens asks one thing when it
// starts, and ends if a key may not verify:
//
//	for at, uses := range keys.Uses() {
//		if !uses.Verify {
//			return fmt.Errorf("the key at position %d may not verify signatures", at)
//		}
//	}
//
// What fmt, log, encoding/json and encoding/gob write of it has no secret and no thumbprint, also where it is in an unexported field of a struct.
// Text has the secrets.
type Keys struct {
	// fmt calls no Format of an unexported field, and prints the fields of what is there. Of a function it prints the address.
	content func() *content
}

// content is what a Keys holds.
type content struct {
	text        []byte
	uses        []KeyUses
	thumbprints []string
}

// get returns what the Keys holds: nothing, if NewKeys did not make it.
func (keys *Keys) get() *content {
	if keys.content == nil {
		return &content{}
	}
	return keys.content()
}

// KeyUses says whether a member of a text of keys is a valid key, and what it may do by some algorithm. A valid key (Good) may do nothing if its
// length does not fit its alg.
type KeyUses struct {
	Good, Sign, Verify, Encrypt, Decrypt bool
}

// NewKeys reads the JSON text of a key or of a set. A text without a valid key is refused.
func NewKeys(text []byte) (*Keys, error) {
	text = append([]byte(nil), text...)
	uses, err := JudgeKeys(text)
	if err != nil {
		return nil, err
	}
	lines, err := Thumbprints(text, SHA256)
	if err != nil {
		return nil, err
	}
	known := &content{text: text, uses: uses, thumbprints: strings.Split(lines, "\n")}
	return &Keys{content: func() *content { return known }}, nil
}

// ReadKeys reads the JSON text of a key or of a set from a file.
func ReadKeys(name string) (*Keys, error) {
	text, err := os.ReadFile(name)
	if err != nil {
		return nil, err
	}
	keys, err := NewKeys(text)
	if err != nil {
		return nil, fmt.Errorf("%s: %w", name, err)
	}
	return keys, nil
}

// KeysFromSecret makes a key from the bytes of a secret that both sides share, for one algorithm, such as "HS256". ErrKeyDoesNotFit
// has two causes: the algorithm does not take a secret of this length (HS256 needs 32 bytes, RFC 7518, section 3.2), or no algorithm has this
// name, such as "hs256" and "RS256". An empty secret is refused with ErrKey.
func KeysFromSecret(secret []byte, alg string) (*Keys, error) {
	text, err := json.Marshal(map[string]string{"kty": "oct", "alg": alg, "k": base64.RawURLEncoding.EncodeToString(secret)})
	if err != nil {
		return nil, err
	}
	keys, err := NewKeys(text)
	if err != nil {
		return nil, err
	}
	// What may do nothing is refused here. A password may have any length.
	if !keys.CanSign() && !keys.CanEncrypt() {
		return nil, ErrKeyDoesNotFit
	}
	return keys, nil
}

// Len returns the number of valid keys.
func (keys *Keys) Len() int {
	return len(keys.get().thumbprints)
}

// Uses returns what each member of the text may do, in order, with the invalid ones.
func (keys *Keys) Uses() []KeyUses {
	return append([]KeyUses(nil), keys.get().uses...)
}

func (keys *Keys) some(may func(KeyUses) bool) bool {
	for _, uses := range keys.get().uses {
		if may(uses) {
			return true
		}
	}
	return false
}

// CanSign says whether one of the keys may sign by some algorithm.
func (keys *Keys) CanSign() bool {
	return keys.some(func(uses KeyUses) bool { return uses.Sign })
}

// CanVerify says whether one of the keys may verify signatures. A service that verifies tokens asks of each key whether it may, by Uses.
func (keys *Keys) CanVerify() bool {
	return keys.some(func(uses KeyUses) bool { return uses.Verify })
}

// CanEncrypt says whether one of the keys may encrypt by some algorithms.
func (keys *Keys) CanEncrypt() bool {
	return keys.some(func(uses KeyUses) bool { return uses.Encrypt })
}

// CanDecrypt says whether one of the keys may decrypt by some algorithms.
func (keys *Keys) CanDecrypt() bool {
	return keys.some(func(uses KeyUses) bool { return uses.Decrypt })
}

// Thumbprints returns the thumbprints of the valid keys by SHA-256, in their order. That of a password is not safe to publish: it lets anyone
// test guesses.
func (keys *Keys) Thumbprints() []string {
	return append([]string(nil), keys.get().thumbprints...)
}

// Text returns a copy of the JSON text, with the secrets.
func (keys *Keys) Text() []byte {
	return append([]byte(nil), keys.get().text...)
}

// Format writes the number of the keys, whatever the verb is.
func (keys Keys) Format(state fmt.State, _ rune) {
	fmt.Fprintf(state, "lakhdzeva.Keys(%d)", keys.Len())
}

// known is the text, or that of no key for a Keys that NewKeys did not make: each call of such a Keys is ErrKey.
func (keys *Keys) known() []byte {
	if text := keys.get().text; len(text) != 0 {
		return text
	}
	return []byte("{}")
}

// Sign is the function Sign with these keys.
func (keys *Keys) Sign(template []byte, form Form, payload []byte) ([]byte, error) {
	return Sign(keys.known(), template, form, payload)
}

// SignDetached is the function SignDetached with these keys.
func (keys *Keys) SignDetached(template []byte, form Form, payload []byte) ([]byte, error) {
	return SignDetached(keys.known(), template, form, payload)
}

// Verify is the function Verify with these keys, one of which must have signed the object.
func (keys *Keys) Verify(object []byte) ([]byte, error) {
	return Verify(keys.known(), object, One)
}

// VerifySigner is the function VerifySigner with these keys.
func (keys *Keys) VerifySigner(object []byte) (payload []byte, signer int, err error) {
	return VerifySigner(keys.known(), object)
}

// VerifyDetached is the function VerifyDetached with these keys, one of which must have signed the object.
func (keys *Keys) VerifyDetached(object, payload []byte) error {
	return VerifyDetached(keys.known(), object, One, payload)
}

// VerifyAll is the function VerifyAll with these keys.
func (keys *Keys) VerifyAll(signers int, object []byte) ([]byte, error) {
	return VerifyAll(keys.known(), signers, object)
}

// VerifyAllDetached is the function VerifyAllDetached with these keys.
func (keys *Keys) VerifyAllDetached(signers int, object, payload []byte) error {
	return VerifyAllDetached(keys.known(), signers, object, payload)
}

// Encrypt is the function Encrypt with these keys.
func (keys *Keys) Encrypt(template []byte, form Form, plaintext []byte) ([]byte, error) {
	return Encrypt(keys.known(), template, form, plaintext)
}

// EncryptDetached is the function EncryptDetached with these keys.
func (keys *Keys) EncryptDetached(template []byte, form Form, plaintext []byte) (object, ciphertext []byte, err error) {
	return EncryptDetached(keys.known(), template, form, plaintext)
}

// Decrypt is the function Decrypt with these keys.
func (keys *Keys) Decrypt(object, ciphertext []byte) ([]byte, error) {
	return Decrypt(keys.known(), object, ciphertext)
}

// DecryptWithIterations is the function DecryptWithIterations with these keys.
func (keys *Keys) DecryptWithIterations(object, ciphertext []byte, iterations uint64) ([]byte, error) {
	return DecryptWithIterations(keys.known(), object, ciphertext, iterations)
}
