package lakhdzeva

import (
	"bytes"
	"strings"
	"testing"
)

func TestDetachedPayloads(t *testing.T) {
	key := []byte(rfc7515Key)
	for _, payload := range [][]byte{nil, {}, []byte("a"), bytes.Repeat([]byte("a"), 100000)} {
		for _, form := range []Form{Object, Compact} {
			whole, err := Sign(key, nil, form, payload)
			if err != nil {
				t.Fatal(err)
			}
			object, err := SignDetached(key, nil, form, payload)
			if err != nil {
				t.Fatal(err)
			}
			// HMAC is deterministic, so both ways to detach the payload make the same object.
			other, detached, err := FormatSignedDetached(whole, nil, form)
			expect(t, other, err, string(object))
			expect(t, detached, err, string(payload))
			again, err := FormatSigned(object, append([]byte{}, payload...), form)
			expect(t, again, err, string(whole))
			for _, signers := range []Signers{One, All} {
				if err := VerifyDetached(key, object, signers, payload); err != nil {
					t.Error(err)
				}
				if err := VerifyDetached(key, object, signers, append([]byte("x"), payload...)); err != ErrNotOpened {
					t.Errorf("got %v", err)
				}
			}
			if err := VerifyAllDetached(key, 1, object, payload); err != nil {
				t.Error(err)
			}
			if err := VerifyAllDetached(key, 2, object, payload); err != ErrKey {
				t.Errorf("got %v", err)
			}
		}
	}
	if err := VerifyDetached(key, []byte(rfc7515A1), One, []byte(rfc7515Payload)); err != ErrForm {
		t.Errorf("got %v", err)
	}
}

func TestDetachedCiphertexts(t *testing.T) {
	key := []byte(rfc7516Key)
	for _, plaintext := range [][]byte{nil, {}, []byte("a"), bytes.Repeat([]byte("a"), 100000)} {
		for _, form := range []Form{Object, Compact} {
			object, ciphertext, err := EncryptDetached(key, nil, form, plaintext)
			if err != nil {
				t.Fatal(err)
			}
			got, err := Decrypt(key, object, ciphertext)
			expect(t, got, err, string(plaintext))
			whole, err := FormatEncrypted(object, ciphertext, form)
			if err != nil {
				t.Fatal(err)
			}
			got, err = Decrypt(key, whole, nil)
			expect(t, got, err, string(plaintext))
			again, detached, err := FormatEncryptedDetached(whole, nil, form)
			expect(t, again, err, string(object))
			expect(t, detached, err, string(ciphertext))
		}
	}
}

func TestFormsOfTheStandards(t *testing.T) {
	got, err := FormatSigned([]byte("eyJhbGciOiJIUzI1NiJ9.aGk.AAAA"), nil, Object)
	expect(t, got, err, `{"payload":"aGk","protected":"eyJhbGciOiJIUzI1NiJ9","signature":"AAAA"}`)
	got, err = FormatSigned([]byte(`{"payload":"aGk","protected":"eyJhbGciOiJIUzI1NiJ9","signature":"AAAA"}`), nil, Compact)
	expect(t, got, err, "eyJhbGciOiJIUzI1NiJ9.aGk.AAAA")
	got, err = FormatSigned([]byte(signedByBoth), nil, Compact)
	refuse(t, got, err, ErrNotCompact)
	json, err := FormatEncrypted([]byte(rfc7516A3), nil, Object)
	if err != nil {
		t.Fatal(err)
	}
	got, err = FormatEncrypted(json, nil, Compact)
	expect(t, got, err, rfc7516A3)
	parts := strings.Split(rfc7516A3, ".")
	object, ciphertext, err := FormatEncryptedDetached([]byte(rfc7516A3), nil, Compact)
	expect(t, object, err, strings.Join([]string{parts[0], parts[1], parts[2], "", parts[4]}, "."))
	if len(ciphertext) != 32 {
		t.Errorf("got %d octets", len(ciphertext))
	}
	for _, form := range []Form{2, 3, 4} {
		got, err = FormatSigned([]byte(rfc7515A1), nil, form)
		refuse(t, got, err, ErrUsage)
		got, err = FormatEncrypted([]byte(rfc7516A3), nil, form)
		refuse(t, got, err, ErrUsage)
		got, err = SignDetached([]byte(rfc7515Key), nil, form, nil)
		refuse(t, got, err, ErrUsage)
		got, _, err = EncryptDetached([]byte(rfc7516Key), nil, form, nil)
		refuse(t, got, err, ErrUsage)
	}
}

func TestVersion(t *testing.T) {
	if parts := strings.Split(Version(), "."); len(parts) != 3 {
		t.Errorf("got %s", Version())
	}
}
