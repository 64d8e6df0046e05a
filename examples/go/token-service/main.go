// Command token-service answers only requests with a valid token (RFC 6750):
//
//	go build && ./token-service service.jwk 8080 login api
//
// The words are the file of the keys, the port, the issuer and the audience that each token must name. The file has one key, or a set of keys
// while one key replaces another. The service starts if every key of it may verify signatures. If the file changes, the service reads it again.
// If one of the new keys may not verify, it says so and keeps the old ones. So write a new file and rename it. A bad token is 401. What is not
// the sender's fault is 500. Put a server in front that speaks TLS.
package main

import (
	"encoding/json"
	"errors"
	"fmt"
	"io"
	"log"
	"net"
	"net/http"
	"os"
	"os/signal"
	"regexp"
	"strings"
	"sync"
	"syscall"
	"time"

	"lakhdzeva.example/lakhdzeva/v3"
)

// A longer header is not looked at, since the work grows with it.
const mostOctets = 4096

// Seconds by which the clocks may differ.
const leeway = 30

// The time in which a whole request must come with its body, and as much for its answer, and until the next request begins.
const deadline = 10 * time.Second

// The scheme may be in small letters or capitals (RFC 9110 section 11.1). A JWT is in compact form.
var credentials = regexp.MustCompile(`^(?i:bearer) +([A-Za-z0-9_.-]+)\z`)

// keyFile has the keys in a file, which are read again when the file changes.
type keyFile struct {
	name  string
	mutex sync.Mutex
	seen  state
	keys  *lakhdzeva.Keys
}

// state tells a file and its content from others. A writer can keep the length and the other time, but not the time of the last change.
type state struct {
	device, inode    uint64
	length           int64
	written, changed syscall.Timespec
}

func stateOf(info os.FileInfo) state {
	found := info.Sys().(*syscall.Stat_t)
	return state{uint64(found.Dev), found.Ino, found.Size, found.Mtim, found.Ctim}
}

// judged returns the keys of this text, if each of them may verify signatures.
func judged(text []byte) (*lakhdzeva.Keys, error) {
	keys, err := lakhdzeva.NewKeys(text)
	if err != nil {
		return nil, err
	}
	for at, uses := range keys.Uses() {
		if !uses.Verify {
			return nil, fmt.Errorf("the key at position %d may not verify signatures", at)
		}
	}
	return keys, nil
}

// read reads the keys, if the file is not the one that was read.
func (file *keyFile) read() error {
	info, err := os.Stat(file.name)
	if err != nil || stateOf(info) == file.seen {
		return err
	}
	// Without O_NONBLOCK a pipe would wait for a writer.
	opened, err := os.OpenFile(file.name, os.O_RDONLY|syscall.O_NONBLOCK, 0)
	if err != nil {
		return err
	}
	defer opened.Close()
	if info, err = opened.Stat(); err != nil {
		return err
	}
	if !info.Mode().IsRegular() {
		file.seen = stateOf(info)
		return errors.New("it is no regular file")
	}
	text, err := io.ReadAll(opened)
	if err != nil {
		return err
	}
	keys, err := judged(text)
	if !errors.Is(err, lakhdzeva.ErrMemory) {
		// A file that could not be read is tried again at the next request, and one with broken keys is not.
		file.seen = stateOf(info)
	}
	if err != nil {
		return err
	}
	log.Printf("%s: keys: %d", file.name, keys.Len())
	file.keys = keys
	return nil
}

// now returns the keys that the file has now, or had before it was broken.
func (file *keyFile) now() *lakhdzeva.Keys {
	file.mutex.Lock()
	defer file.mutex.Unlock()
	if err := file.read(); err != nil {
		log.Printf("%s is not read again: %v", file.name, err)
	}
	return file.keys
}

type service struct {
	file     *keyFile
	expected Expected
}

// subject returns for whom the token in this header is, or what is wrong with it.
func (service *service) subject(header string) (string, error) {
	found := credentials.FindStringSubmatch(header)
	if found == nil || len(header) > mostOctets {
		return "", errors.New("form")
	}
	token := []byte(found[1])
	payload, err := service.file.now().Verify(token)
	if err != nil {
		return "", err
	}
	claims, err := claimsOf(token, payload, service.expected, float64(time.Now().UnixNano())/1e9)
	if err != nil {
		return "", err
	}
	if subject, isText := claims["sub"].(string); isText {
		return subject, nil
	}
	return "", errors.New("sub")
}

func (service *service) ServeHTTP(out http.ResponseWriter, request *http.Request) {
	// Several headers make no credentials together, even if one is empty.
	header := strings.Join(request.Header.Values("Authorization"), ", ")
	status, challenge, answer := http.StatusOK, "", map[string]string{}
	subject, err := service.subject(header)
	var refusal lakhdzeva.Refusal
	switch {
	case err == nil:
		answer["you"] = subject
	case header == "":
		status, challenge, answer["error"] = http.StatusUnauthorized, "Bearer", "no token"
	case errors.Is(err, errExpected), errors.As(err, &refusal) && refusal.Fault():
		// The keys or this machine are at fault. The sender need not know why.
		log.Print(err)
		status, answer["error"] = http.StatusInternalServerError, "the service has a fault"
	default:
		log.Printf("a bad token: %v", err)
		status, challenge, answer["error"] = http.StatusUnauthorized, `Bearer error="invalid_token"`, "no valid token"
	}
	if challenge != "" {
		out.Header().Set("WWW-Authenticate", challenge)
	}
	out.Header().Set("Content-Type", "application/json")
	out.WriteHeader(status)
	_ = json.NewEncoder(out).Encode(answer)
}

func main() {
	log.SetFlags(0)
	log.SetPrefix("token-service: ")
	// A log that nobody reads makes a write fail, and must not end the service.
	signal.Ignore(syscall.SIGPIPE)
	if len(os.Args) != 5 {
		log.Fatal("usage: token-service KEYS PORT ISSUER AUDIENCE")
	}
	if os.Args[3] == "" || os.Args[4] == "" {
		log.Fatal("the issuer and the audience must not be empty")
	}
	// Broken keys end the service here, and not at each request.
	file := &keyFile{name: os.Args[1]}
	if err := file.read(); err != nil {
		log.Fatalf("%s: %v", file.name, err)
	}
	listener, err := net.Listen("tcp", "127.0.0.1:"+os.Args[2])
	if err != nil {
		log.Fatal(err)
	}
	fmt.Println("listening on port", listener.Addr().(*net.TCPAddr).Port)
	server := http.Server{
		Handler:        &service{file, Expected{Issuer: &os.Args[3], Audience: &os.Args[4], Leeway: leeway}},
		MaxHeaderBytes: 2 * mostOctets,
		ReadTimeout:    deadline,
		WriteTimeout:   deadline,
		IdleTimeout:    deadline,
	}
	log.Fatal(server.Serve(listener))
}
