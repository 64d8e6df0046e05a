// Package lakhdzeva signs and verifies (JWS, RFC 7515), encrypts and decrypts (JWE, RFC 7516), makes keys (JWK, RFC 7517) and computes
// their thumbprints (RFC 7638), with octet keys. It calls the proved library lakhdzeva by cgo, which makes all decisions.
//
// A service reads its keys once, when it starts, as [Keys]: they are checked then, so that a later error is about the token. Each function here
// takes the JSON text of keys instead. Each call reads the text of the keys again, that of Keys too.
//
// pkg-config says where the header and the library are. With the build tag lakhdzeva_flags, CGO_CFLAGS and CGO_LDFLAGS say it instead.
//
// The arguments:
//   - keys is the JSON text of one key, or of a set.
//   - template is a JSON template: the headers of a token, or the members of a key. If it is nil, the keys decide.
//   - form is the serialization of an object that is written.
//
// An error is a [Refusal], such as [ErrNotOpened], for errors.Is and errors.As.
//
// What to mind with every function:
//   - The keys say whom you trust. Never take them from the object.
//   - All keys are shared secrets: whoever can verify can also sign, and whoever can decrypt can also encrypt.
//   - A key without `alg` is used for each algorithm that takes its length. So write `alg` and `key_ops` into each key.
//   - The member `kid` never selects a key: each key that you pass is tried.
//   - If a name is repeated in a JSON object, the last one counts.
//   - A token takes up to 132 times its length in memory, and an object in JSON form up to 350 times. So limit the length of a
//     stranger's text.
//   - The library wipes the memory that it used. Your own is not wiped: slices, and those of results.
//   - The timing of reading a key's text depends on the key.
//
// What you must guarantee:
//   - No other goroutine may change an argument during a call.
//   - No C code of yours may jump out of a call (siglongjmp in a signal handler) or cancel its thread: the heap would be broken. Nothing
//     ends a call before it returns, and no context does. To bound its time, limit the lengths and the iterations that you pass, or call in
//     a process of its own.
package lakhdzeva

/*
#include <lakhdzeva.h>
*/
import "C"

import (
	"fmt"
	"unsafe"
)

// Refusal is the error of a call without a result. Its number is stable. Ask for one with errors.Is(err, ErrNotOpened).
type Refusal uint32

// The refusals. The comments of enum lakhdzeva_status in lakhdzeva.h say when each occurs.
const (
	ErrUsage         Refusal = C.LAKHDZEVA_USAGE
	ErrRead          Refusal = C.LAKHDZEVA_READ
	ErrWrite         Refusal = C.LAKHDZEVA_WRITE
	ErrMemory        Refusal = C.LAKHDZEVA_MEMORY
	ErrRandom        Refusal = C.LAKHDZEVA_RANDOM
	ErrBase64        Refusal = C.LAKHDZEVA_BASE64
	ErrJSON          Refusal = C.LAKHDZEVA_JSON
	ErrNumber        Refusal = C.LAKHDZEVA_NUMBER
	ErrKey           Refusal = C.LAKHDZEVA_KEY
	ErrForm          Refusal = C.LAKHDZEVA_FORM
	ErrHeader        Refusal = C.LAKHDZEVA_HEADER
	ErrUnsupported   Refusal = C.LAKHDZEVA_UNSUPPORTED
	ErrNoAlgorithm   Refusal = C.LAKHDZEVA_NO_ALGORITHM
	ErrKeyDoesNotFit Refusal = C.LAKHDZEVA_KEY_DOES_NOT_FIT
	ErrLimit         Refusal = C.LAKHDZEVA_LIMIT
	ErrNotCompact    Refusal = C.LAKHDZEVA_NOT_COMPACT
	ErrNotOpened     Refusal = C.LAKHDZEVA_NOT_OPENED
)

// Error returns the number, a space and the name, such as "17 NotOpened".
func (refusal Refusal) Error() string {
	return fmt.Sprintf("%d %s", uint32(refusal), C.GoString(C.lakhdzeva_name(C.uint32_t(refusal))))
}

// Fault says whether the refusal is about this machine or the keys, and not about a token: a service answers 500, and not 401. It is right for
// a Keys each of whose keys may do what is asked (Uses). Of a function that reads a text of keys, other refusals can be about the keys too.
func (refusal Refusal) Fault() bool {
	return refusal <= ErrRandom || refusal == ErrKey || refusal == ErrNoAlgorithm || refusal > ErrNotOpened
}

// Version returns the version of the library, such as "3.0.0".
func Version() string {
	return C.GoString(C.lakhdzeva_version())
}

// Form is the serialization of an object that is written.
type Form uint32

// The forms: a JSON object, or parts with dots between them, for one signature or recipient.
const (
	Object  Form = 0
	Compact Form = C.LAKHDZEVA_COMPACT
)

// Signers says which keys must have signed an object.
type Signers uint32

// At least one of the keys, or each of the valid keys. All does not count signers: VerifyAll does.
const (
	One Signers = 0
	All Signers = C.LAKHDZEVA_ALL
)

// Hash is the hash of a thumbprint.
type Hash uint32

// The hashes.
const (
	SHA224 Hash = 224
	SHA256 Hash = 256
	SHA384 Hash = 384
	SHA512 Hash = 512
)

// nothing is the byte that the pointer of an empty text points to. Nobody reads or writes it.
var nothing [1]byte

// some returns the bytes, or one byte if there are none, so that the first one has an address. The length is always that of the bytes
// themselves. Each call of C takes its pointers as unsafe.Pointer(&some(octets)[0]): cgo then keeps the bytes where they are until the
// call returns, and checks only them for pointers, not what is next to them in memory.
func some(octets []byte) []byte {
	if len(octets) == 0 {
		return nothing[:]
	}
	return octets
}

// orEmpty returns the template, or {} if it is nil.
func orEmpty(template []byte) []byte {
	if template == nil {
		return []byte("{}")
	}
	return template
}

func size(octets []byte) C.size_t {
	return C.size_t(len(octets))
}

// answer calls with a place of this room, which always suffices.
func answer(room C.size_t, call func(place []byte, length *C.size_t) uint32) ([]byte, error) {
	// A slice cannot have more.
	if uint64(room) > 1<<47 {
		return nil, ErrMemory
	}
	place, length := make([]byte, room), C.size_t(0)
	if status := call(place, &length); status != C.LAKHDZEVA_OK {
		return nil, Refusal(status)
	}
	return place[:length:length], nil
}

// answers calls with two places, of which each room always suffices.
func answers(room, roomBeside C.size_t, call func(place, beside []byte, length, lengthBeside *C.size_t) uint32) ([]byte, []byte, error) {
	var beside []byte
	var lengthBeside C.size_t
	place, err := answer(room, func(place []byte, length *C.size_t) uint32 {
		beside = make([]byte, roomBeside)
		return call(place, beside, length, &lengthBeside)
	})
	if err != nil {
		return nil, nil, err
	}
	return place, beside[:lengthBeside:lengthBeside], nil
}

// status returns the error that a status means.
func status(status uint32) error {
	if status == C.LAKHDZEVA_OK {
		return nil
	}
	return Refusal(status)
}

// compact returns the flag of a form, and whether it is one of the two forms. Another number could be another flag of the header.
func compact(form Form) (C.uint, bool) {
	return C.uint(form), form == Object || form == Compact
}

// Generate makes a random key as the template asks, for example {"alg":"HS256"}, and returns its JSON text.
func Generate(template []byte) ([]byte, error) {
	template = orEmpty(template)
	return answer(C.lakhdzeva_generate_room(size(template)), func(key []byte, length *C.size_t) uint32 {
		return uint32(C.lakhdzeva_generate(
			unsafe.Pointer(&some(template)[0]), size(template),
			unsafe.Pointer(&some(key)[0]), size(key), length))
	})
}

// Thumbprints returns the thumbprints of the valid keys, in their order, with a line feed between each two. That of a password is not safe
// to publish: it lets anyone test guesses.
func Thumbprints(keys []byte, hash Hash) (string, error) {
	lines, err := answer(C.lakhdzeva_thumbprints_room(size(keys)), func(lines []byte, length *C.size_t) uint32 {
		return uint32(C.lakhdzeva_thumbprints(
			unsafe.Pointer(&some(keys)[0]), size(keys), C.uint(hash),
			unsafe.Pointer(&some(lines)[0]), size(lines), length))
	})
	return string(lines), err
}

// JudgeKeys returns what each member of a text of keys may do, in order: each member of a set, or the key that is alone.
//   - A key may do something if it may by some algorithm. Whether it fits an object shows when that comes.
//   - A key with Good need not be usable: one of 5 bytes for HS256 verifies nothing. A service that verifies asks for Verify of each.
//   - Whoever has a key can do with it what it may not do: `use` and `key_ops` are rules for this library and others like it.
func JudgeKeys(keys []byte) ([]KeyUses, error) {
	numbers, err := answer(C.lakhdzeva_judge_keys_room(size(keys)), func(uses []byte, length *C.size_t) uint32 {
		return uint32(C.lakhdzeva_judge_keys(
			unsafe.Pointer(&some(keys)[0]), size(keys),
			unsafe.Pointer(&some(uses)[0]), size(uses), length))
	})
	if err != nil {
		return nil, err
	}
	judged := make([]KeyUses, len(numbers))
	for at, number := range numbers {
		may := func(use byte) bool { return number&use != 0 }
		judged[at] = KeyUses{
			Good: may(C.LAKHDZEVA_GOOD), Sign: may(C.LAKHDZEVA_MAY_SIGN), Verify: may(C.LAKHDZEVA_MAY_VERIFY),
			Encrypt: may(C.LAKHDZEVA_MAY_ENCRYPT), Decrypt: may(C.LAKHDZEVA_MAY_DECRYPT),
		}
	}
	return judged, nil
}

// Sign signs the payload with each of the keys, and returns the object. The payload is in the object as it is, and not secret. In the
// template `protected` is signed, and `header` is a header that is not signed.
func Sign(keys, template []byte, form Form, payload []byte) ([]byte, error) {
	return sign(keys, template, form, 0, payload)
}

// SignDetached signs the payload with each of the keys, and returns the object without the payload (RFC 7515, appendix F). The rest is as for
// Sign.
func SignDetached(keys, template []byte, form Form, payload []byte) ([]byte, error) {
	return sign(keys, template, form, C.LAKHDZEVA_DETACH, payload)
}

func sign(keys, template []byte, form Form, detach C.uint, payload []byte) ([]byte, error) {
	flags, known := compact(form)
	if !known {
		return nil, ErrUsage
	}
	template = orEmpty(template)
	inside := size(payload)
	if detach != 0 {
		inside = 0
	}
	room := C.lakhdzeva_sign_room(size(keys), size(template), inside)
	return answer(room, func(object []byte, length *C.size_t) uint32 {
		return uint32(C.lakhdzeva_sign(
			unsafe.Pointer(&some(keys)[0]), size(keys),
			unsafe.Pointer(&some(template)[0]), size(template), flags|detach,
			unsafe.Pointer(&some(payload)[0]), size(payload),
			unsafe.Pointer(&some(object)[0]), size(object), length))
	})
}

// Verify verifies the object, and returns its payload.
//   - With All each valid key must have made a signature. It skips invalid keys, and takes one signature for two keys that sign alike. So
//     for a rule such as "Ann and Bob must both sign" call VerifyAll.
//   - It checks no claims, such as `exp` of a JWT.
//   - An old object verifies too, so put a number or a date into what you sign.
//   - One token has many texts: to revoke it, list an id in its payload, and not its text.
//   - In JSON form a header can be unsigned, or belong to a signature that none of your keys made: if a header matters, accept only compact
//     form.
//   - It computes an HMAC of the payload for each key, algorithm and protected header, at most 256 times 64: limit the length of what
//     strangers send.
func Verify(keys, object []byte, signers Signers) ([]byte, error) {
	return answer(C.lakhdzeva_verify_room(size(object)), func(payload []byte, length *C.size_t) uint32 {
		return uint32(C.lakhdzeva_verify(
			unsafe.Pointer(&some(keys)[0]), size(keys),
			unsafe.Pointer(&some(object)[0]), size(object), C.uint(signers),
			unsafe.Pointer(&some(payload)[0]), size(payload), length))
	})
}

// VerifyDetached verifies the object with this payload, which is not in the object (RFC 7515, appendix F). An object that has its own payload
// is refused with ErrForm. The rest is as for Verify.
func VerifyDetached(keys, object []byte, signers Signers, payload []byte) error {
	return status(uint32(C.lakhdzeva_verify_detached(
		unsafe.Pointer(&some(keys)[0]), size(keys),
		unsafe.Pointer(&some(object)[0]), size(object), C.uint(signers),
		unsafe.Pointer(&some(payload)[0]), size(payload))))
}

// VerifySigner verifies the object, and returns its payload and the position in the set, from 0, of the first key that made a signature. It is for
// a service whose keys belong to different parties. An invalid key is refused as by Sign, so the position counts every key of the set.
//   - Nobody but the owner of a key may know it: whoever has the bytes of a key can sign as its owner.
//   - An object in JSON form can have signatures of several keys. This names the first key of the set that made one, and no other.
//
// The rest is as for Verify.
func VerifySigner(keys, object []byte) (payload []byte, signer int, err error) {
	var place C.size_t
	payload, err = answer(C.lakhdzeva_verify_room(size(object)), func(payload []byte, length *C.size_t) uint32 {
		return uint32(C.lakhdzeva_verify_signer(
			unsafe.Pointer(&some(keys)[0]), size(keys),
			unsafe.Pointer(&some(object)[0]), size(object),
			unsafe.Pointer(&some(payload)[0]), size(payload), length, &place))
	})
	return payload, int(place), err
}

// VerifyAll verifies that each key of the set signed the object, and returns its payload. The text has exactly so many keys as there are
// signers. It is for rules about people, such as "Ann and Bob must both sign". An invalid key is refused as by Sign. Another number of keys is
// refused with ErrKey, and so are two keys that sign alike: HMAC fills a short key with zeros and hashes a long one (RFC 2104), so keys that
// differ can make the same signatures. It is ErrNotOpened unless each key made a signature.
//   - Use one call for one rule: two calls with two sets both succeed by one signature, if its key is in both sets.
//   - It counts keys, not people: whoever has two keys signs for two. So let each person compare the thumbprint of his key.
//   - The host that verifies has all keys, so it could sign as well.
//
// The rest is as for Verify.
func VerifyAll(keys []byte, signers int, object []byte) ([]byte, error) {
	// No text has as many keys as a negative number is as a size_t.
	return answer(C.lakhdzeva_verify_room(size(object)), func(payload []byte, length *C.size_t) uint32 {
		return uint32(C.lakhdzeva_verify_all(
			unsafe.Pointer(&some(keys)[0]), size(keys), C.size_t(signers),
			unsafe.Pointer(&some(object)[0]), size(object),
			unsafe.Pointer(&some(payload)[0]), size(payload), length))
	})
}

// VerifyAllDetached verifies that each key of the set signed the object with this payload, which is not in the object (RFC 7515, appendix F). The
// rest is as for VerifyAll.
func VerifyAllDetached(keys []byte, signers int, object, payload []byte) error {
	return status(uint32(C.lakhdzeva_verify_all_detached(
		unsafe.Pointer(&some(keys)[0]), size(keys), C.size_t(signers),
		unsafe.Pointer(&some(object)[0]), size(object),
		unsafe.Pointer(&some(payload)[0]), size(payload))))
}

// Encrypt encrypts the plaintext to each of the keys, and returns the object.
//   - The recipients share its random key, so each of them can put another plaintext into the object.
//   - When a host leaves, make a new key for each recipient that stays.
//   - Without an `alg`, a password of 16, 24 or 32 bytes is used as a key itself, without iterations.
//   - A password takes 100,000 iterations, or `p2c` of the template: name 600,000 there for one password.
//   - Use a key for at most 2^32 objects with AES-GCM key wrap, or with `dir` and a GCM.
//   - In the template `unprotected` is a header that is not authenticated, and `aad` is a text that everyone can read.
func Encrypt(keys, template []byte, form Form, plaintext []byte) ([]byte, error) {
	object, _, err := encrypt(keys, template, form, 0, plaintext)
	return object, err
}

// EncryptDetached encrypts the plaintext to each of the keys, and returns the object without its ciphertext, and the ciphertext. The rest is as
// for Encrypt.
func EncryptDetached(keys, template []byte, form Form, plaintext []byte) (object, ciphertext []byte, err error) {
	return encrypt(keys, template, form, C.LAKHDZEVA_DETACH, plaintext)
}

func encrypt(keys, template []byte, form Form, detach C.uint, plaintext []byte) ([]byte, []byte, error) {
	flags, known := compact(form)
	if !known {
		return nil, nil, ErrUsage
	}
	template = orEmpty(template)
	roomInside, roomBeside := size(plaintext), C.size_t(0)
	if detach != 0 {
		roomInside, roomBeside = 0, C.lakhdzeva_ciphertext_room(size(plaintext))
	}
	room := C.lakhdzeva_encrypt_room(size(keys), size(template), roomInside)
	return answers(room, roomBeside, func(object, ciphertext []byte, length, lengthBeside *C.size_t) uint32 {
		return uint32(C.lakhdzeva_encrypt(
			unsafe.Pointer(&some(keys)[0]), size(keys),
			unsafe.Pointer(&some(template)[0]), size(template), flags|detach,
			unsafe.Pointer(&some(plaintext)[0]), size(plaintext),
			unsafe.Pointer(&some(object)[0]), size(object), length,
			unsafe.Pointer(&some(ciphertext)[0]), size(ciphertext), lengthBeside))
	})
}

// Decrypt decrypts the object with one of the keys, and returns the plaintext. It tries no password: DecryptWithIterations does. The
// ciphertext is nil if it is in the object. An empty ciphertext that is kept apart is an empty slice that is not nil.
//   - A password may have any length, so every key without `alg` fits, and an object for a password is refused with ErrLimit.
//   - The recipients share its random key, so each of them can put another plaintext into the object.
//   - A malicious writer can make an object that opens to two plaintexts for two recipients.
//   - It notices a changed `aad`, but does not check its text.
//   - Each pair of a recipient and a key that fits can cost a pass over the ciphertext, at most 256 times 64. An attacker without a key can
//     cause many of them: limit the length of strangers' objects.
func Decrypt(keys, object, ciphertext []byte) ([]byte, error) {
	return DecryptWithIterations(keys, object, ciphertext, 0)
}

// DecryptWithIterations decrypts the object with one of the keys, of which some may be passwords. The call makes at most so many iterations
// of PBKDF2 in all.
//   - An object names its iterations itself, so a stranger's costs seconds: 2,000,000 for each recipient, and 16,000,000 in all. A greater
//     number means 16,000,000.
//   - The sum counts each recipient with each key that fits. If it is above the number, the call is ErrLimit, before any derivation.
//   - A password may have any length, so every key without `alg` fits. Give each key an `alg`: then one that is no password costs no
//     iteration.
//   - Name 600,000 for one password of today's recommendation.
//
// The rest is as for Decrypt.
func DecryptWithIterations(keys, object, ciphertext []byte, iterations uint64) ([]byte, error) {
	room := C.lakhdzeva_decrypt_room(size(object), size(ciphertext))
	return answer(room, func(plaintext []byte, length *C.size_t) uint32 {
		if ciphertext == nil {
			return uint32(C.lakhdzeva_decrypt(
				unsafe.Pointer(&some(keys)[0]), size(keys),
				unsafe.Pointer(&some(object)[0]), size(object), nil, 0, C.uint64_t(iterations),
				unsafe.Pointer(&some(plaintext)[0]), size(plaintext), length))
		}
		return uint32(C.lakhdzeva_decrypt(
			unsafe.Pointer(&some(keys)[0]), size(keys),
			unsafe.Pointer(&some(object)[0]), size(object),
			unsafe.Pointer(&some(ciphertext)[0]), size(ciphertext), C.uint64_t(iterations),
			unsafe.Pointer(&some(plaintext)[0]), size(plaintext), length))
	})
}

// FormatSigned writes a signed object in this form (RFC 7515, section 7). It sees no key and verifies nothing. Unknown members are left out. The
// payload is nil if it is in the object. A payload that you pass becomes part of the object.
func FormatSigned(object, payload []byte, form Form) ([]byte, error) {
	text, _, err := format(signedObject, object, payload, form, 0)
	return text, err
}

// FormatSignedDetached writes a signed object in this form without its payload, and returns it and the payload (RFC 7515, appendix F). It
// verifies nothing. The rest is as for FormatSigned.
func FormatSignedDetached(object, payload []byte, form Form) (text, detached []byte, err error) {
	return format(signedObject, object, payload, form, C.LAKHDZEVA_DETACH)
}

// FormatEncrypted writes an encrypted object in this form (RFC 7516, section 7). It sees no key and decrypts nothing. Unknown members are left
// out. The ciphertext is nil if it is in the object. A ciphertext that you pass becomes part of the object.
func FormatEncrypted(object, ciphertext []byte, form Form) ([]byte, error) {
	text, _, err := format(encryptedObject, object, ciphertext, form, 0)
	return text, err
}

// FormatEncryptedDetached writes an encrypted object in this form without its ciphertext, and returns it and the ciphertext. It decrypts
// nothing. The rest is as for FormatEncrypted.
func FormatEncryptedDetached(object, ciphertext []byte, form Form) (text, detached []byte, err error) {
	return format(encryptedObject, object, ciphertext, form, C.LAKHDZEVA_DETACH)
}

// What is formatted.
const (
	signedObject = iota
	encryptedObject
)

func format(kind int, object, content []byte, form Form, detach C.uint) ([]byte, []byte, error) {
	flags, known := compact(form)
	if !known {
		return nil, nil, ErrUsage
	}
	lengthInside, roomBeside := size(content), C.size_t(0)
	if detach != 0 {
		lengthInside, roomBeside = 0, C.lakhdzeva_content_room(size(object), size(content))
	}
	room := C.lakhdzeva_format_room(size(object), lengthInside)
	return answers(room, roomBeside, func(text, detached []byte, length, lengthBeside *C.size_t) uint32 {
		switch {
		case kind == signedObject && content == nil:
			return uint32(C.lakhdzeva_format_signed(
				unsafe.Pointer(&some(object)[0]), size(object), nil, 0, flags|detach,
				unsafe.Pointer(&some(text)[0]), size(text), length,
				unsafe.Pointer(&some(detached)[0]), size(detached), lengthBeside))
		case kind == signedObject:
			return uint32(C.lakhdzeva_format_signed(
				unsafe.Pointer(&some(object)[0]), size(object),
				unsafe.Pointer(&some(content)[0]), size(content), flags|detach,
				unsafe.Pointer(&some(text)[0]), size(text), length,
				unsafe.Pointer(&some(detached)[0]), size(detached), lengthBeside))
		case content == nil:
			return uint32(C.lakhdzeva_format_encrypted(
				unsafe.Pointer(&some(object)[0]), size(object), nil, 0, flags|detach,
				unsafe.Pointer(&some(text)[0]), size(text), length,
				unsafe.Pointer(&some(detached)[0]), size(detached), lengthBeside))
		default:
			return uint32(C.lakhdzeva_format_encrypted(
				unsafe.Pointer(&some(object)[0]), size(object),
				unsafe.Pointer(&some(content)[0]), size(content), flags|detach,
				unsafe.Pointer(&some(text)[0]), size(text), length,
				unsafe.Pointer(&some(detached)[0]), size(detached), lengthBeside))
		}
	})
}
