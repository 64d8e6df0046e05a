package lakhdzeva_test

import (
	"errors"
	"fmt"
	"log"

	"lakhdzeva.example/lakhdzeva/v3"
)

// A service reads its keys when it starts. Then each error that is not a Fault is about the token.
func Example() {
	keys, err := lakhdzeva.NewKeys([]byte(`{"kty":"oct","alg":"HS256","k":"AAECAwQFBgcICQoLDA0ODxAREhMUFRYXGBkaGxwdHh8"}`))
	if err != nil {
		log.Fatal(err)
	}
	token := "eyJhbGciOiJIUzI1NiJ9.aGVsbG8.0gXhFJy9tQ17YbeQRi9CaFNoGQWTk66Alugo1jcHzKo"
	for _, received := range []string{token, token[:len(token)-4] + "AAAA"} {
		payload, err := keys.Verify([]byte(received))
		var refusal lakhdzeva.Refusal
		switch {
		case errors.As(err, &refusal) && !refusal.Fault():
			fmt.Println("401:", err)
		case err != nil:
			fmt.Println("500:", err)
		default:
			fmt.Printf("200: %s\n", payload)
		}
	}
	// Output:
	// 200: hello
	// 401: 17 NotOpened
}

// A partner gave a secret as hexadecimal digits or as text: its octets are the key.
func ExampleKeysFromSecret() {
	_, err := lakhdzeva.KeysFromSecret([]byte("too short"), "HS256")
	fmt.Println(err)
	keys, err := lakhdzeva.KeysFromSecret([]byte("a secret of at least 32 characters"), "HS256")
	if err != nil {
		log.Fatal(err)
	}
	fmt.Println(keys)
	// Output:
	// 14 KeyDoesNotFit
	// lakhdzeva.Keys(1)
}

func ExampleVerifyAll() {
	ann := `{"kty":"oct","k":"AAECAwQFBgcICQoLDA0ODxAREhMUFRYXGBkaGxwdHh8"}`
	bob := `{"kty":"oct","k":"ICEiIyQlJicoKSorLC0uLzAxMjM0NTY3ODk6Ozw9Pj8"}`
	both := []byte(`{"keys":[` + ann + "," + bob + `]}`)
	object, err := lakhdzeva.Sign(both, nil, lakhdzeva.Object, []byte("release 7"))
	if err != nil {
		log.Fatal(err)
	}
	payload, err := lakhdzeva.VerifyAll(both, 2, object)
	fmt.Printf("%s, %v\n", payload, err)
	object, err = lakhdzeva.Sign([]byte(ann), nil, lakhdzeva.Object, []byte("release 7"))
	if err != nil {
		log.Fatal(err)
	}
	_, err = lakhdzeva.VerifyAll(both, 2, object)
	fmt.Println(errors.Is(err, lakhdzeva.ErrNotOpened))
	// Output:
	// release 7, <nil>
	// true
}

func ExampleEncryptDetached() {
	key, err := lakhdzeva.Generate([]byte(`{"alg":"A256KW"}`))
	if err != nil {
		log.Fatal(err)
	}
	object, ciphertext, err := lakhdzeva.EncryptDetached(key, nil, lakhdzeva.Compact, []byte("a long text"))
	if err != nil {
		log.Fatal(err)
	}
	plaintext, err := lakhdzeva.Decrypt(key, object, ciphertext)
	fmt.Printf("%s, %v\n", plaintext, err)
	// Output:
	// a long text, <nil>
}
