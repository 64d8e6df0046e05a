package main

import (
	"encoding/base64"
	"encoding/json"
	"errors"
	"math"
	"regexp"
	"strings"
	"unicode/utf8"
)

// Expected says what the claims of a token must be. Nil expects nothing, but an aud that is not expected refuses the token. An empty text is
// refused: it comes of a setting that is missing, and must not mean that nothing is expected.
type Expected struct {
	Issuer, Audience, Type *string
	// Seconds by which the clocks may differ.
	Leeway float64
}

// errExpected is the caller's fault, for each token: an expected text is empty (a type is empty too if it has application/ alone), the leeway is
// negative, or a time is not finite.
var errExpected = errors.New("expected")

var compact = regexp.MustCompile(`^[A-Za-z0-9_-]+\.[A-Za-z0-9_-]+\.[A-Za-z0-9_-]+\z`)

// Without what is usual, pairs of surrogates and escapes such as \\ and \", a text must not have what is strange: half of a pair, of which Unmarshal
// makes U+FFFD, and a zero in a name. Parsers differ on both.
var (
	usual   = regexp.MustCompile(`\\[^u]|\\u[dD][89abAB]..\\u[dD][c-fC-F]..`)
	strange = regexp.MustCompile(`\\u(?:[dD][89a-fA-F]|0000[^"]*"\s*:)`)
)

// mediaType returns the type in small letters and without its usual beginning. Only letters of ASCII count: strings.ToLower makes k of the sign of
// Kelvin, too.
func mediaType(value any) string {
	text, _ := value.(string)
	return strings.TrimPrefix(strings.Map(func(r rune) rune {
		if 'A' <= r && r <= 'Z' {
			r += 'a' - 'A'
		}
		return r
	}, text), "application/")
}

func (expected *Expected) isMeant(now float64) bool {
	for _, text := range []*string{expected.Issuer, expected.Audience, expected.Type} {
		if text != nil && *text == "" {
			return false
		}
	}
	leewayFits := expected.Leeway >= 0 && expected.Leeway <= math.MaxFloat64
	return leewayFits && math.Abs(now) <= math.MaxFloat64 && (expected.Type == nil || mediaType(*expected.Type) != "")
}

// claimsOf returns the claims (RFC 7519) in the payload of this token, which was verified, at this time in seconds since 1970. If a claim is
// wrong, the error names it: form, claims, typ, exp, nbf, iss or aud. exp must be there. errExpected is no fault of the token.
func claimsOf(token, payload []byte, expected Expected, now float64) (map[string]any, error) {
	if !expected.isMeant(now) {
		return nil, errExpected
	}
	if !compact.Match(token) {
		return nil, errors.New("form")
	}
	// A map has the names as they are: a struct would take EXP for exp. Unmarshal replaces what is not UTF-8, so that is refused first.
	var claims, header map[string]any
	isStrange := !utf8.Valid(payload) || strange.Match(usual.ReplaceAll(payload, nil))
	if isStrange || json.Unmarshal(payload, &claims) != nil || claims == nil {
		return nil, errors.New("claims")
	}
	if expected.Type != nil {
		protected, _, _ := strings.Cut(string(token), ".")
		text, err := base64.RawURLEncoding.DecodeString(protected)
		if err != nil || json.Unmarshal(text, &header) != nil || mediaType(header["typ"]) != mediaType(*expected.Type) {
			return nil, errors.New("typ")
		}
	}
	if ends, isDate := claims["exp"].(float64); !isDate || now-expected.Leeway >= ends {
		return nil, errors.New("exp")
	}
	if claim, there := claims["nbf"]; there {
		if begins, isDate := claim.(float64); !isDate || now+expected.Leeway < begins {
			return nil, errors.New("nbf")
		}
	}
	if issuer, _ := claims["iss"].(string); expected.Issuer != nil && issuer != *expected.Issuer {
		return nil, errors.New("iss")
	}
	audience, there := claims["aud"]
	names, isList := audience.([]any)
	if !isList {
		names = []any{audience}
	}
	found := !there && expected.Audience == nil
	for _, name := range names {
		text, isText := name.(string)
		if there && !isText {
			return nil, errors.New("aud")
		}
		found = found || expected.Audience != nil && text == *expected.Audience
	}
	if !found {
		return nil, errors.New("aud")
	}
	return claims, nil
}
